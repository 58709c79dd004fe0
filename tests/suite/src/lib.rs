//! Tests made at run time, one for each file or line of a table, with the command line and the
//! output of Rust's own: `cargo test -p suite --test cases worked_example` runs one by its name.

mod harness;
mod programs;

pub use harness::{same, Checks, Told, Verdict};
pub use programs::{
    archive, last_of, made, made_within, plain_shell, root, run_text, shell, texts, trace, verdict,
    Said, Scratch,
};

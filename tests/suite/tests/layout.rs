//! The sources as they must be laid out, by `rattle fmt --check`, and the
//! documentation of the Rust crate without a warning.

use std::process::ExitCode;
use suite::{plain_shell, Checks, Verdict};

fn holds(line: &str) -> Verdict {
    plain_shell(line, &[]).content().map(|_| ())
}

fn main() -> ExitCode {
    let mut checks = Checks::of("layout");
    checks.add("rattle fmt --check", || {
        holds("find crates -name out -prune -o -type f '(' -name '*.rt' -o -name '*.antt' ')' -print0 | xargs -0 rattle fmt --check")
    });
    checks.add("the Rust crate is documented", || {
        holds("RUSTDOCFLAGS='-D warnings' cargo doc --quiet --offline --locked -p zeppolecape --no-deps")
    });
    checks.main()
}

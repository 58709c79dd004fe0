//! The Rust crate on tables of any contents and in any order of calls, held to the second program
//! (`tests/fuzz`), under valgrind: what its unsafe code lends, and what the library does with it. Under the
//! address sanitizer: tests/sanitized.sh.

use helpers::done;
use std::env::current_exe;
use std::process::Command;

/// In a program of its own; `ROUNDS` says how many of each.
#[test]
#[ignore = "under_valgrind runs it"]
fn any_calls() {
    fuzz::random("tables", 1_000);
    fuzz::random("owned", 1_000);
}

#[test]
#[cfg_attr(not(valgrind), ignore = "NOT TRIED: no valgrind")]
fn under_valgrind() {
    let mut command = Command::new("valgrind");
    command.args(["--quiet", "--error-exitcode=9"]).arg(current_exe().expect("this program"));
    command.args(["--exact", "any_calls", "--ignored"]).env("ROUNDS", "300");
    let said = done(&mut command);
    assert!(said.contains("1 passed; 0 failed"), "{said}");
}

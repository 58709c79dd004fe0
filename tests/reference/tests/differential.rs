//! Random and malformed run files through the program and through the second program, byte for byte.
//! `target/cargo/debug/differential --help` tells how to run more seeds, or one again.

use std::process::{Command, ExitCode};
use suite::{trace, Checks, Told};

/// What it says of each refusal, and its counts; all of it where it fails.
fn runs() -> Told {
    let output = Command::new(env!("CARGO_BIN_EXE_differential"))
        .arg(trace())
        .current_dir(suite::root())
        .output()
        .map_err(|error| error.to_string())?;
    let said = String::from_utf8_lossy(&output.stdout);
    if !output.status.success() {
        return Err(format!("{said}{}", String::from_utf8_lossy(&output.stderr)));
    }
    let told = |line: &&str| line.contains(" refused ") || line.ends_with(" failed");
    Ok(said.lines().filter(told).collect::<Vec<_>>().join("\n"))
}

fn main() -> ExitCode {
    let mut checks = Checks::of("differential");
    checks.tell("run files of every kind, the trace and its judge", runs);
    checks.main()
}

//! `view`: a run that a person can look at.

use std::process::ExitCode;

fn main() -> ExitCode {
    tools::say::main("view", tools::view::USAGE, tools::view::work)
}

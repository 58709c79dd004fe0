//! `verdict`: whether a history can be true, and why not.

use std::process::ExitCode;

fn main() -> ExitCode {
    tools::say::main("verdict", tools::verdict::USAGE, tools::verdict::work)
}

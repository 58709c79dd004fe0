//! `schedules`: every order of a run's two half-done calls.

use std::process::ExitCode;

fn main() -> ExitCode {
    tools::say::main("schedules", tools::schedules::USAGE, tools::schedules::work)
}

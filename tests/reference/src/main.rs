//! `reference`: a run file on standard input, its trace on standard output.
//!
//! The file is read whole, then carried out; the trace is written in large pieces.

use reference::check::Judge;
use reference::run::{run, Failure, Nobody};
use std::io::{self, Read};
use std::process::ExitCode;

const HELP: &str = "\
usage: reference [--check] < RUNFILE > TRACE

Carries out a run file and prints its trace.
  --check  also judge every event by a sequential deque and the invariant;
           the first violation is named on standard error, exit status 1
";

fn main() -> ExitCode {
    let arguments: Vec<String> = std::env::args().skip(1).collect();
    let arguments: Vec<&str> = arguments.iter().map(String::as_str).collect();
    match arguments[..] {
        [] => trace(false),
        ["--check"] => trace(true),
        ["--help"] => {
            print!("{HELP}");
            ExitCode::SUCCESS
        }
        _ => complain(HELP.trim_end(), 2),
    }
}

fn trace(check: bool) -> ExitCode {
    let mut file = Vec::new();
    if let Err(error) = io::stdin().lock().read_to_end(&mut file) {
        return complain(&format!("reference: reading: {error}"), 2);
    }
    let out = io::stdout().lock();
    let outcome = match check {
        true => run(&file, out, &mut Judge::default()),
        false => run(&file, out, &mut Nobody),
    };
    match outcome {
        Ok(()) => ExitCode::SUCCESS,
        Err(Failure::Output(error)) => complain(&format!("reference: writing: {error}"), 2),
        Err(Failure::Violation(event, what)) => {
            complain(&format!("reference: event {event}: {what}"), 1)
        }
    }
}

fn complain(message: &str, status: u8) -> ExitCode {
    eprintln!("{message}");
    ExitCode::from(status)
}

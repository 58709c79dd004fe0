//! `generate`: writes a run file, either the differential test's for a seed or a long load.

use reference::dice::Dice;
use reference::scenario;
use std::io::{self, Write};
use std::process::ExitCode;

const HELP: &str = "\
usage: generate seed SEED         the differential test's run file of that seed
       generate load STEPS SEED   a steady load of at least STEPS steps
";

fn main() -> ExitCode {
    let arguments: Vec<String> = std::env::args().skip(1).collect();
    let arguments: Vec<&str> = arguments.iter().map(String::as_str).collect();
    match generate(&arguments) {
        None => eprint!("{HELP}"),
        Some(Ok(())) => return ExitCode::SUCCESS,
        Some(Err(error)) => eprintln!("generate: writing: {error}"),
    }
    ExitCode::from(2)
}

/// Nothing where the words are not those of `HELP`.
fn generate(arguments: &[&str]) -> Option<io::Result<()>> {
    let mut out = io::stdout().lock();
    match *arguments {
        ["seed", seed] => Some(out.write_all(&scenario::of_seed(seed.parse().ok()?).1)),
        ["load", steps, seed] => {
            let (mut dice, steps) = (Dice::new(seed.parse().ok()?), steps.parse().ok()?);
            Some(scenario::write_load(&mut dice, steps, &mut out))
        }
        _ => None,
    }
}

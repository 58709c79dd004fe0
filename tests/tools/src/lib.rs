//! What the tests of the tools share: `csv` reads what `view --csv` writes, `expected` says what the second
//! program makes of a run, `browser` drives a browser.

pub mod browser;
pub mod csv;
pub mod expected;
pub mod json;

use std::path::Path;
use suite::{plain_shell, shell, Checks, Said};

/// The checks of a test target, with the tools built: a tool that has to be built first says so.
pub fn checks(target: &'static str) -> Checks {
    let built = plain_shell("cargo build --quiet --offline --locked -p tools", &[]).content();
    assert!(built.is_ok(), "the tools do not build: {built:?}");
    Checks::of(target)
}

/// A run of `view`, with `RUN` in its words naming the run.
pub fn view(words: &str, run: &Path) -> Said {
    shell(&format!("\"$ROOT/tools/view\" {words}"), &[("RUN", run)])
}

/// What a program wrote, where it was content.
pub fn content(said: Said) -> Result<String, String> {
    match (said.status, said.noise.as_str()) {
        (0, "") => String::from_utf8(said.out).map_err(|error| format!("  {error}")),
        (status, noise) => Err(format!("  status {status}, {noise}")),
    }
}

/// Line by line the same, or the first lines that differ.
pub fn same_lines(expected: &str, found: &str) -> suite::Verdict {
    let (mut ours, mut theirs) = (expected.lines(), found.lines());
    for number in 1.. {
        match (ours.next(), theirs.next()) {
            (None, None) => return Ok(()),
            (one, other) if one == other => {}
            (one, other) => {
                let shown = |line: Option<&str>| line.unwrap_or("(no more lines)").to_string();
                let (one, other) = (shown(one), shown(other));
                return Err(format!("  line {number}\n  expected {one}\n  found    {other}"));
            }
        }
    }
    Ok(())
}

//! Every case: `tests/cases/NAME.txt` must print `NAME.trace`, byte for byte, with status 0 and
//! nothing on standard error.

use std::fs::read;
use std::path::Path;
use std::process::ExitCode;
use suite::{run_text, texts, Checks, Verdict};

fn case(text: &Path) -> Verdict {
    let found = run_text(text)?;
    let expected =
        read(text.with_extension("trace")).map_err(|error| format!("  no trace: {error}"))?;
    if found == expected {
        return Ok(());
    }
    let (expected, found) = (String::from_utf8_lossy(&expected), String::from_utf8_lossy(&found));
    let mut lines = expected.lines().zip(found.lines()).filter(|(one, other)| one != other);
    Err(match lines.next() {
        Some((one, other)) => format!("  expected {one}\n  printed  {other}"),
        None => format!("  expected {} bytes, printed {}", expected.len(), found.len()),
    })
}

fn main() -> ExitCode {
    let mut checks = Checks::of("cases");
    for (name, text) in texts("tests/cases") {
        checks.add(&name, move || case(&text));
    }
    checks.main()
}

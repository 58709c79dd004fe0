//! `view --csv` against the second program: every field of every row, for the examples, the cases and
//! random runs; and the same rows of a run in its text form and as a run file.

use reference::scenario;
use std::path::Path;
use std::process::ExitCode;
use suite::{same, shell, texts, Scratch, Verdict};
use toolsuite::{content, csv, expected, same_lines, view};

/// The columns that the second program can tell; what a touch did, in words, is told in stored files.
fn told(text: &str) -> Vec<expected::Row> {
    let rows = csv::rows(text);
    let keep = |row: Vec<(String, String)>| {
        row.into_iter().filter(|(name, _)| name != "what it did").map(|(_, value)| value).collect()
    };
    rows.into_iter().map(keep).collect()
}

fn compared(file: &[u8], text: &str) -> Verdict {
    let (expected, found) = (expected::rows(file), told(text));
    same(expected.len(), found.len())?;
    expected.into_iter().zip(found).try_for_each(|(one, other)| same(one, other))
}

/// Status 1 only where the run is malformed.
fn rows_of(run: &Path, malformed: bool) -> Result<String, String> {
    let said = view("--csv \"$RUN\"", run);
    match (said.status, said.noise.as_str(), malformed) {
        (0, "", false) | (1, "", true) => Ok(String::from_utf8_lossy(&said.out).into_owned()),
        (status, noise, _) => Err(format!("  status {status}, {noise}")),
    }
}

fn of_text(text: &Path) -> Verdict {
    let scratch = Scratch::make();
    let made = shell("\"$ROOT/tools/runfile\" \"$TEXT\"", &[("TEXT", text)]);
    same((0, ""), (made.status, &made.noise))?;
    let file = scratch.file("run", &made.out);
    let malformed = expected::rows(&made.out).iter().any(|row| row[2] == "file");
    let rows = rows_of(text, malformed)?;
    compared(&made.out, &rows)?;
    if made.out.is_empty() {
        return Ok(()); // an empty run file is no text either
    }
    same_lines(&rows, &rows_of(&file, malformed)?)
}

fn of_seed(seed: u64) -> Verdict {
    let scratch = Scratch::make();
    let (_, run) = scenario::of_seed(seed);
    let malformed = expected::rows(&run).iter().any(|row| row[2] == "file");
    compared(&run, &rows_of(&scratch.file("run", &run), malformed)?)
}

fn main() -> ExitCode {
    let mut checks = toolsuite::checks("rows");
    for folder in ["examples", "tests/cases"] {
        for (name, text) in texts(folder) {
            checks.add(&format!("{folder}: {name}"), move || of_text(&text));
        }
    }
    for seed in 0..22 {
        checks.add(&format!("seed {seed}"), move || of_seed(seed));
    }
    checks.add("names and a part of a run", || {
        let run = suite::root().join("tests/cases/worked_example.txt");
        let text = content(view("--csv --names 1=head --from 7 --to 8 \"$RUN\"", &run))?;
        let rows = csv::rows(&text);
        same(2, rows.len())?;
        let fields = ["event", "task", "answer", "head", "queue"];
        let found = fields.map(|name| csv::field(&rows[1], name).to_string());
        same(["8", "head", "popped 700 from slot 1", "idle", "[]"].map(String::from), found)
    });
    checks.main()
}

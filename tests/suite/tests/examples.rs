//! Every example must answer as its comments say: the words behind "->", step by step; an opening or
//! a start without "->" answers ok.

use std::fs::read_to_string;
use std::path::Path;
use std::process::ExitCode;
use suite::{run_text, same, texts, Checks, Verdict};

/// The answers that the text promises, in order.
fn promised(text: &str) -> Vec<&str> {
    let mut answers = Vec::new();
    for line in text.lines().filter(|line| !line.starts_with('#')) {
        match line.rsplit_once("->") {
            Some((_, words)) => answers.extend(words.split_whitespace()),
            None if ["open ", "push ", "pop "].iter().any(|word| line.starts_with(word)) => {
                answers.push("ok")
            }
            None => {}
        }
    }
    answers
}

fn example(text: &Path) -> Verdict {
    let trace = String::from_utf8_lossy(&run_text(text)?).into_owned();
    let answered = trace.lines().skip(1).filter_map(|line| line.split(' ').nth(3)).collect();
    let text = read_to_string(text).map_err(|error| format!("  {error}"))?;
    same(promised(&text), answered)
}

fn main() -> ExitCode {
    let mut checks = Checks::of("examples");
    for (name, text) in texts("examples") {
        checks.add(&name, move || example(&text));
    }
    checks.main()
}

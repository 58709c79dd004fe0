//! `search`: every interleaving of a few calls on small queues, and what was met.

use reference::search::{all, never, row, table, visit, Scope};
use std::fs::{read_to_string, write};
use std::process::ExitCode;
use std::time::Instant;

const HELP: &str = "\
usage: search                                the table of all scopes, some minutes
       search --write FILE                   the same, put between the lines <!-- search --> of FILE
       search named|pooled SLOTS WAITING CALLS..   one scope: the calls of each task, two tasks or more
";

const MARK: &str = "<!-- search -->\n";

fn main() -> ExitCode {
    let words: Vec<String> = std::env::args().skip(1).collect();
    let words: Vec<&str> = words.iter().map(String::as_str).collect();
    let done = match words[..] {
        [] => searched(&all()).map(|text| print!("{text}")),
        ["--write", file] => searched(&all()).and_then(|text| put(file, &text)),
        [queue, ref numbers @ ..] => match asked(queue, numbers) {
            Some(scope) => searched(&[scope]).map(|text| print!("{text}")),
            None => Err(HELP.to_string()),
        },
    };
    match done {
        Ok(()) => ExitCode::SUCCESS,
        Err(what) => {
            eprintln!("{what}");
            ExitCode::FAILURE
        }
    }
}

fn asked(queue: &str, numbers: &[&str]) -> Option<Scope> {
    let pooled = match queue {
        "named" => false,
        "pooled" => true,
        _ => return None,
    };
    let numbers: Option<Vec<u8>> = numbers.iter().map(|number| number.parse().ok()).collect();
    match numbers?[..] {
        [slots, waiting, ref calls @ ..] if slots > 0 && waiting <= slots && calls.len() > 1 => {
            Some(Scope::any(pooled, slots.into(), waiting, calls))
        }
        _ => None,
    }
}

/// The table; how long each row took goes to standard error.
fn searched(scopes: &[Scope]) -> Result<String, String> {
    let mut found = Vec::new();
    for scope in scopes {
        let begun = Instant::now();
        let met = visit(scope).map_err(|what| format!("search: {scope:?}: {what}"))?;
        eprint!("{:.1} s: {}", begun.elapsed().as_secs_f32(), row(scope, &met));
        found.push((scope, met));
    }
    let rows = found.iter().map(|(scope, met)| row(scope, met));
    let never = never(found.iter().map(|(scope, met)| (*scope, met)));
    let never = if never.is_empty() { "none".to_string() } else { never.join("; ") };
    Ok(format!("{}\nWays that no step of these went: {never}.\n", table(rows)))
}

fn put(file: &str, table: &str) -> Result<(), String> {
    let failed = |error| format!("search: {file}: {error}");
    let text = read_to_string(file).map_err(failed)?;
    let mut parts = text.split(MARK);
    match (parts.next(), parts.next(), parts.next(), parts.next()) {
        (Some(before), Some(_), Some(after), None) => {
            write(file, format!("{before}{MARK}{table}{MARK}{after}")).map_err(failed)
        }
        _ => Err(format!("search: {file}: two lines {} are wanted", MARK.trim())),
    }
}

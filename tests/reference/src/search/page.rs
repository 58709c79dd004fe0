//! What was met, as a table of Markdown.

use super::{Met, Scope};
use std::fmt::Write;

const HEAD: &str = "\
| queue | slots | waiting at first | calls of each task | states | events | longest stretch | push alone | pop alone | answers met | ways gone |
|---|---|---|---|---|---|---|---|---|---|---|
";

/// A number with commas between its thousands.
fn spelled(number: usize) -> String {
    let digits = number.to_string();
    let mut text = String::new();
    for (at, digit) in digits.chars().enumerate() {
        if at > 0 && (digits.len() - at) % 3 == 0 {
            text.push(',');
        }
        text.push(digit);
    }
    text
}

/// The row of a scope; with a line's end.
pub fn row(scope: &Scope, met: &Met) -> String {
    let queue = if scope.pooled { "pooled" } else { "named" };
    let calls: Vec<String> = scope.calls.iter().map(|calls| calls.len().to_string()).collect();
    let answers: Vec<String> =
        met.answers.iter().map(|(word, count)| format!("{word} {}", spelled(*count))).collect();
    let mut text = String::new();
    let (slots, waiting, calls) = (scope.slots, scope.waiting, calls.join(" + "));
    write!(text, "| {queue} | {slots} | {waiting} | {calls} ").expect("a string takes all");
    let (states, events, stretch) = (spelled(met.states), spelled(met.events), met.stretch);
    let [push, pop] = met.alone;
    write!(text, "| {states} | {events} | {stretch} | {push} | {pop} ")
        .expect("a string takes all");
    writeln!(text, "| {} | {} of {} |", answers.join(", "), met.ways - met.missing.len(), met.ways)
        .expect("a string takes all");
    text
}

pub fn table(rows: impl IntoIterator<Item = String>) -> String {
    rows.into_iter().fold(HEAD.to_string(), |text, row| text + &row)
}

/// The ways that no step of any search went, by the kind of queue.
pub fn never<'a>(searches: impl IntoIterator<Item = (&'a Scope, &'a Met)>) -> Vec<String> {
    let mut left: [Option<Vec<String>>; 2] = [None, None];
    for (scope, met) in searches {
        let kind = &mut left[usize::from(scope.pooled)];
        match kind {
            None => *kind = Some(met.missing.clone()),
            Some(ways) => ways.retain(|way| met.missing.contains(way)),
        }
    }
    left.into_iter().flatten().flatten().collect()
}

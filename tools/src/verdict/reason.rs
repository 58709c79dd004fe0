//! Why a history is refused or fails: document 02, #103, in words, with the calls and their lines.

use super::plain::{serve, Given, Labels};
use crate::history::History;
use crate::words::side;
use zeppolecape::{Finished, MOST_CALLS};

/// A call by its number and line.
fn named(history: &History, number: usize) -> String {
    match history.lines.get(number.wrapping_sub(1)) {
        Some(line) => format!("call {number}, line {line}"),
        None => format!("call {number}"),
    }
}

/// Which of its causes a refusal 40 has.
pub fn refused(history: &History) -> String {
    if history.calls.len() > MOST_CALLS {
        return format!("{} calls, and at most {MOST_CALLS} are judged", history.calls.len());
    }
    let odd = (1..).zip(&history.calls).find_map(|(number, call)| Some((number, odd(call)?)));
    if let Some((number, what)) = odd {
        return format!("{}: {what}", named(history, number));
    }
    let mut events: Vec<(u64, String)> = (1..)
        .zip(&history.calls)
        .flat_map(|(number, call)| {
            let named = named(history, number);
            [
                (call.start, format!("the start of {named}")),
                (call.end, format!("the answer of {named}")),
            ]
        })
        .collect();
    events.sort_by_key(|(event, _)| *event);
    let twice = events.windows(2).find(|pair| pair[0].0 == pair[1].0);
    match twice {
        Some(pair) => format!("event {} is {} and {}", pair[0].0, pair[0].1, pair[1].1),
        None => "no cause was found".to_string(),
    }
}

/// What of a call is unknown or impossible.
fn odd(call: &Finished) -> Option<String> {
    let Finished { kind, side, answer, start, end, .. } = *call;
    match () {
        _ if kind > 1 => Some(format!("kind {kind} is neither push (0) nor pop (1)")),
        _ if side > 1 => Some(format!("side {side} is neither left (0) nor right (1)")),
        _ if !(2..=4).contains(&answer) => {
            Some(format!("answer {answer} is none of pushed (2), empty (3) and popped (4)"))
        }
        _ if end <= start => {
            Some(format!("answered at event {end}, not after its start at {start}"))
        }
        _ => None,
    }
}

/// Why an order does not name every call once.
pub fn misnamed(history: &History, order: &[u64]) -> String {
    let count = history.calls.len();
    if order.len() != count {
        return format!("the order names {} calls, and there are {count}", order.len());
    }
    let mut seen = vec![0; count + 1];
    for (position, &number) in (1..).zip(order) {
        let Some(first) = seen.get_mut(number as usize).filter(|_| number > 0) else {
            return format!("position {position} names call {number}, and there are {count}");
        };
        if *first != 0 {
            return format!("positions {first} and {position} both name call {number}");
        }
        *first = position;
    }
    "no cause was found".to_string()
}

/// Why a position of the order is wrong, with what the plain queue held there.
pub fn wrong(history: &History, order: &[u64], position: usize) -> String {
    let call = |number: u64| &history.calls[number as usize - 1];
    let mut queue = Labels::new();
    for &number in &order[..position - 1] {
        serve(&mut queue, call(number));
    }
    let number = order[position - 1];
    let here = format!("position {position}, {}", named(history, number as usize));
    if let Some(what) = served_otherwise(&queue, call(number)) {
        return format!("{here}: {what}");
    }
    let started = call(number).start;
    match order[position..].iter().find(|&&later| call(later).end < started) {
        Some(&later) => {
            let answered = call(later).end;
            let later = named(history, later as usize);
            format!("{here}: started at event {started}, and stands before {later}, answered at {answered}")
        }
        None => format!("{here}: no cause was found"),
    }
}

/// What was told and what would have been, where the two differ.
fn served_otherwise(queue: &Labels, call: &Finished) -> Option<String> {
    let labels: Vec<String> = queue.iter().map(u64::to_string).collect();
    let waited = match labels.len() {
        0 => "nothing waited".to_string(),
        _ => format!("{} waited", labels.join(" ")),
    };
    let told = match call.answer {
        2 => "pushed".to_string(),
        3 => "empty".to_string(),
        _ => format!("popped {}", call.label),
    };
    let given = serve(&mut queue.clone(), call);
    if given.was_told(call) {
        return None;
    }
    Some(match given {
        Given::Pushed => format!("told {told}, and it is a push"),
        _ if call.answer == 2 => format!("told {told}, and it is a pop"),
        Given::Popped(label) if call.answer == 4 => {
            format!("told {told}, but {label} was at its {} end: {waited}", side(call.side))
        }
        _ => format!("told {told}, but {waited}"),
    })
}

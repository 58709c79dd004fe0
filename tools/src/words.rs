//! Names for things: tasks, sides, statuses, answers, refusals, where a task stands, the queue from
//! left to right, and what a touch did.

mod touch;

pub use touch::{sees, touch};

use crate::queue::{Entry, Machine, Side};
use std::collections::BTreeMap;
use zeppolecape::{link_slot, raw, Answer, Record, Refusal};

/// The names that tasks were given; without one a task is its number.
#[derive(Clone, Debug, Default)]
pub struct Names(BTreeMap<u8, String>);

impl Names {
    /// `0=scale,4=head`.
    pub fn of(text: &str) -> Result<Names, String> {
        let mut names = BTreeMap::new();
        for word in text.split(',').filter(|word| !word.is_empty()) {
            let Some((task, name)) = word.split_once('=') else {
                return Err(format!("not TASK=NAME: {word}"));
            };
            let task: u8 = task.parse().map_err(|_| format!("no number of a task: {task}"))?;
            if name.is_empty() || !name.chars().all(|letter| (' '..='~').contains(&letter)) {
                return Err(format!("no name for task {task}: {name:?}"));
            }
            if names.insert(task, name.to_string()).is_some() {
                return Err(format!("task {task} has two names"));
            }
        }
        Ok(Names(names))
    }

    pub fn task(&self, task: u8) -> String {
        self.0.get(&task).cloned().unwrap_or_else(|| task.to_string())
    }

    /// The same in a sentence: a number needs its noun.
    pub fn the_task(&self, task: u8) -> String {
        self.0.get(&task).cloned().unwrap_or_else(|| format!("task {task}"))
    }
}

pub fn side(number: u64) -> String {
    match number {
        raw::LEFT => "left".into(),
        raw::RIGHT => "right".into(),
        _ => format!("side {number}"),
    }
}

pub fn status(number: u64) -> &'static str {
    match number {
        raw::STABLE => "STABLE",
        raw::RPUSH => "RPUSH",
        raw::LPUSH => "LPUSH",
        _ => "no status",
    }
}

/// A slot, or null.
pub fn slot(number: u64) -> String {
    match number {
        0 => "null".into(),
        _ => format!("slot {number}"),
    }
}

pub fn refused(refusal: Refusal) -> String {
    format!("refused {}: {}", refusal.number(), refusal.words())
}

/// What document 01 calls 16, of which the library knows nothing.
pub const MALFORMED: &str = "refused 16: the run file is malformed";

pub fn answer(answer: Answer) -> String {
    match answer {
        Answer::Running(place) => format!("at {place}"),
        Answer::Pushed => "pushed".into(),
        Answer::Empty => "empty".into(),
        Answer::Popped { slot, label } => format!("popped {label} from slot {slot}"),
        Answer::NoFreeSlot => "no slot".into(),
    }
}

/// Where a task stands: `push L at 5`, `pop R at 11`, `idle`.
pub fn standing(record: &Record) -> String {
    let kind = if record.kind == raw::PUSH { "push" } else { "pop" };
    let side = if record.side == raw::LEFT { "L" } else { "R" };
    match record.place {
        0 => "idle".into(),
        place => format!("{kind} {side} at {place}"),
    }
}

/// The same in little room: `+L5`, `-R11`, `.`.
pub fn standing_short(record: &Record) -> String {
    let kind = if record.kind == raw::PUSH { '+' } else { '-' };
    let side = if record.side == raw::LEFT { 'L' } else { 'R' };
    match record.place {
        0 => ".".into(),
        place => format!("{kind}{side}{place}"),
    }
}

/// Whether two neighbours in the queue name each other. Only at the end that the status names may the
/// link back not be made yet.
pub fn linked(queue: &impl Machine, left: u64, right: u64) -> bool {
    link_slot(queue.link(Side::Right, left)) == right
        && link_slot(queue.link(Side::Left, right)) == left
}

/// The labels from left to right, `-` for a link and `~` for one that is not made yet; of a long queue
/// `most` labels, the middle left out.
pub fn chain(queue: &impl Machine, entries: &[Entry], most: usize) -> String {
    let Some((first, rest)) = entries.split_first() else { return String::new() };
    let left_out = entries.len().saturating_sub(most.max(2));
    let from = 1 + (most.max(2) - 1) / 2;
    let mut text = first.1.to_string();
    for (at, &(slot, label)) in (1..).zip(rest) {
        if left_out > 0 && at == from {
            text += &format!(" - ({left_out} more)");
        }
        if left_out == 0 || at < from || at >= from + left_out {
            let link = if linked(queue, entries[at - 1].0, slot) { " - " } else { " ~ " };
            text += link;
            text += &label.to_string();
        }
    }
    text
}

/// The labels as far as they can be told where the walk from end to end is broken, which it never is in
/// the library's queue: from the end that it begins at, up to null, a slot met before, or too many.
pub fn broken(queue: &impl Machine) -> String {
    let anchor = queue.anchor();
    let (start, along) = match anchor.status {
        raw::LPUSH => (anchor.left, Side::Right),
        _ => (anchor.right, Side::Left),
    };
    let (mut met, mut slot) = (Vec::new(), start);
    while (1..=queue.control().slots).contains(&slot) && !met.contains(&slot) && met.len() < 4 {
        met.push(slot);
        slot = link_slot(queue.link(along, slot));
    }
    let labels = met.iter().map(|&slot| queue.label(slot).to_string());
    let mut labels: Vec<String> = labels.collect();
    if along == Side::Left {
        labels.reverse();
        return format!("BROKEN: ? {}", labels.join(" - "));
    }
    format!("BROKEN: {} ?", labels.join(" - "))
}

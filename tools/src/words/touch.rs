//! What a touch did, in words: document 01, "Places", and document 02, #104 and #106.

use super::{answer, refused, side, slot, MALFORMED};
use crate::play::{Asked, Reply, Touch};
use zeppolecape::{link_slot, raw, Anchor, Answer, Record};

/// What the touch did; `sees` is the queue afterwards, for a task that reads Anchor.
pub fn touch(touch: &Touch, sees: &str) -> String {
    let did = match (touch.asked, touch.reply) {
        (_, Reply::Malformed) => MALFORMED.to_string(),
        (Asked::Step, Reply::Moved(answer)) => step(touch, answer, sees),
        (asked, Reply::Refused(refusal)) => match asked {
            Asked::Step => refused(refusal),
            _ => format!("{}: {}", start(asked), refused(refusal)),
        },
        (asked, _) => start(asked),
    };
    match touch.retry() {
        Some(count) => format!("{did} (retry {count})"),
        None => did,
    }
}

/// Whether a task may read Anchor with this touch: at 1, or by a change at 2 or 4 that fails.
pub fn sees(touch: &Touch) -> bool {
    touch.before.1.is_some_and(|record| matches!(record.place, 1 | 2 | 4))
}

fn start(asked: Asked) -> String {
    match asked {
        Asked::Open(opening) => {
            let pool = if opening.pooled { ", slots in a pool" } else { "" };
            let (tasks, slots) = (opening.tasks, opening.slots);
            format!("opens: tasks {tasks}, slots {slots}, first tag {}{pool}", opening.first_tag)
        }
        Asked::Push { side: end, slot, label } => {
            let slot = slot.map_or(String::new(), |slot| format!(" in slot {slot}"));
            format!("starts push {} of {label}{slot}", side(end.into()))
        }
        Asked::Pop { side: end } => format!("starts pop {}", side(end.into())),
        Asked::Step | Asked::File => String::new(),
    }
}

/// A step that was carried out: the task had a record before and has one after it.
fn step(touch: &Touch, told: Answer, sees: &str) -> String {
    let (Some(before), Some(after)) = (&touch.before.1, &touch.after.1) else {
        return answer(told);
    };
    let failed = touch.retry().is_some();
    let did = match (before.place, failed) {
        (1, _) => format!("reads Anchor: sees [{sees}]"),
        (2 | 4, true) => format!("failed: sees [{sees}]"),
        (9, true) => format!("failed: the link of {} changed", slot(before.neighbour)),
        (10, true) => "failed: Anchor changed".into(),
        (14 | 17, true) => "failed: the pool's head changed".into(),
        (12..=17, false) => pool(before, after, told),
        _ => done(touch, before, after, told),
    };
    let helps = matches!(before.place, 5..=10) && before.finishing == 0;
    let helps = if helps { "helps: " } else { "" };
    format!("{} {helps}{did}{}", before.place, ending(before, told))
}

/// What a task does at 2 to 11 where its change, if it makes one, is done.
fn done(touch: &Touch, before: &Record, after: &Record, told: Answer) -> String {
    let seen = Anchor::of(before.seen);
    let left = if before.place < 5 { before.side == raw::LEFT } else { seen.status == raw::LPUSH };
    let end = if left { seen.left } else { seen.right };
    let (this, other) = if left { ("Left", "Right") } else { ("Right", "Left") };
    let anchor = Anchor::of(touch.after.0.anchor);
    match before.place {
        2 if before.kind == raw::PUSH => format!("both ends moved to {}", slot(before.own)),
        2 => "both ends moved to null".into(),
        3 if before.kind == raw::PUSH => {
            format!("points {}'s {other} to {}", slot(before.own), slot(end))
        }
        3 | 5 => format!("reads {}'s {other}: {}", slot(end), slot(after.neighbour)),
        4 if left => format!("left end moved to {}", slot(anchor.left)),
        4 => format!("right end moved to {}", slot(anchor.right)),
        6 | 8 if touch.before.0.anchor == before.seen => "Anchor is as read".into(),
        6 | 8 => "Anchor has changed".into(),
        7 => {
            let named = slot(link_slot(after.link));
            let wanted = match told {
                Answer::Running(10) => " already".to_string(),
                _ => format!(", not {}", slot(end)),
            };
            format!("reads {}'s {this}: {named}{wanted}", slot(before.neighbour))
        }
        9 => format!("mends the link of {}", slot(before.neighbour)),
        10 => "Anchor made STABLE".into(),
        _ => format!("reads the label of {}", slot(taken(before))),
    }
}

/// The slot that a pop at 11 has taken.
fn taken(record: &Record) -> u64 {
    let seen = Anchor::of(record.seen);
    if record.side == raw::LEFT {
        seen.left
    } else {
        seen.right
    }
}

/// What a task does at 12 to 17 where its change, if it makes one, is done.
fn pool(before: &Record, after: &Record, told: Answer) -> String {
    let top = slot(link_slot(before.link));
    match before.place {
        12 if told == Answer::NoFreeSlot => "reads the pool's head: null".into(),
        12 | 15 => format!("reads the pool's head: {}", slot(link_slot(after.link))),
        13 => format!("reads {top}'s next: {}", slot(after.neighbour)),
        14 => format!("takes {top} from the pool"),
        16 => format!("points {}'s next to {top}", slot(before.own)),
        _ => format!("gives {} back to the pool", slot(before.own)),
    }
}

/// The answer, where the step has one, or that the task starts over.
fn ending(before: &Record, told: Answer) -> String {
    match told {
        Answer::Running(1) if matches!(before.place, 6..=10) => ": starts over".into(),
        Answer::Running(_) => String::new(),
        Answer::Popped { label, .. } => format!(": popped {label}"),
        told => format!(": {}", answer(told)),
    }
}

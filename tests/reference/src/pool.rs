//! The pool of a pooled queue (#104): the stack of free slots, and where every slot is when
//! a push is told that there is none.

use crate::contents;
use crate::tables::{Record, Shared, Tables, POP, PUSH};
use crate::word::{Anchor, Link, Side};

/// The stacked slots from the top, or nothing if the stack leaves the rows or never ends.
pub fn stacked(shared: &Shared) -> Option<Vec<u64>> {
    let slots = shared.control.slots;
    let mut found = Vec::new();
    let mut slot = Link(shared.control.head).slot();
    while slot != 0 {
        if slot > slots || found.len() as u64 == slots {
            return None;
        }
        found.push(slot);
        slot = shared.next[slot as usize];
    }
    Some(found)
}

/// The slot that a task's call has to itself: a push from 14 to its effect, a pop from its
/// effect to 17.
pub fn held_slot(record: &Record) -> Option<u64> {
    match (record.kind, record.place) {
        (PUSH, 1..=10) if record.finishing == 0 => Some(record.own),
        (POP, 11) => Some(Anchor::unpack(record.seen).end(Side::numbered(record.side))),
        (POP, 15..=17) => Some(record.own),
        _ => None,
    }
}

/// A slot that neither waits nor is held by a call; there must be none when a push is told
/// *no slot*. 0 if the walk of the labels waiting is broken.
pub fn idle_slot(tables: &Tables) -> Option<u64> {
    let control = &*tables.shared.control;
    let Some(waiting) = contents::waiting(&tables.shared) else { return Some(0) };
    let mut used = vec![false; control.slots as usize + 1];
    let held = tables.records[..control.tasks as usize].iter().filter_map(held_slot);
    for slot in waiting.iter().map(|entry| entry.slot).chain(held) {
        used[slot as usize] = true;
    }
    (1..=control.slots).find(|&slot| !used[slot as usize])
}

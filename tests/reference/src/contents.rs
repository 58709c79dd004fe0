//! The labels waiting, in order: document 01, "Places", last paragraph, and document 02, #102.

use crate::deque::Entry;
use crate::tables::Shared;
use crate::word::{Anchor, Link, Side, LPUSH};

/// The entries from left to right, or nothing if before the other end the walk meets slot 0, such a
/// link word as 34 names, or more slots than exist.
pub fn waiting(shared: &Shared) -> Option<Vec<Entry>> {
    let anchor = Anchor::unpack(shared.control.anchor);
    let (from, to) = match anchor.status {
        LPUSH => (Side::Left, Side::Right),
        _ => (Side::Right, Side::Left),
    };
    let mut entries = Vec::new();
    if anchor.is_empty() {
        return Some(entries);
    }
    let mut slot = anchor.end(from);
    while (1..=shared.control.slots).contains(&slot)
        && entries.len() < shared.control.slots as usize
    {
        entries.push(Entry { slot, label: shared.labels[slot as usize] });
        if slot == anchor.end(to) {
            if from == Side::Right {
                entries.reverse();
            }
            return Some(entries);
        }
        let link = Link(shared.links(to)[slot as usize]);
        if !link.is_sound(shared.control.slots) {
            return None;
        }
        slot = link.slot();
    }
    None
}

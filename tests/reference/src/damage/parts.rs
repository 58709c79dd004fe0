//! What the damages have in common: which part is hit, and with what.

use crate::dice::Dice;
use crate::tables::{Record, Storage};
use crate::word::{Anchor, Link, LAST_TAG};

/// Changes fields of Anchor where it lies.
pub fn anchor(storage: &mut Storage, change: impl FnOnce(&mut Anchor)) {
    let mut anchor = Anchor::unpack(storage.control.anchor);
    change(&mut anchor);
    storage.control.anchor = anchor.pack();
}

/// Changes some task's record, if there is one left.
pub fn record(storage: &mut Storage, dice: &mut Dice, change: impl FnOnce(&mut Record, &mut Dice)) {
    let tasks = (storage.control.tasks.clamp(1, 16) as usize).min(storage.records.len());
    if tasks > 0 {
        let task = dice.between(0, tasks as u64 - 1) as usize;
        change(&mut storage.records[task], dice);
    }
}

pub fn slot(storage: &Storage, dice: &mut Dice) -> u64 {
    dice.between(1, storage.control.slots.clamp(1, 1_023))
}

/// A 15-bit number above slots.
pub fn above(storage: &Storage, dice: &mut Dice) -> u64 {
    dice.pick(&[storage.control.slots.min(1_023) + 1, 0x7fff])
}

/// A slot number within and beyond all limits.
pub fn any_slot(storage: &Storage, dice: &mut Dice) -> u64 {
    let above = above(storage, dice);
    dice.pick(&[0, 1, storage.control.slots, above, u64::MAX])
}

/// A length just below, at, or far below the rows needed.
pub fn rows(storage: &Storage, dice: &mut Dice) -> usize {
    let slots = storage.control.slots.min(1_023) as usize;
    dice.pick(&[slots, slots + 1, 0])
}

/// A link word, sound or not: spare bits, a slot above slots, the last tag.
pub fn any_link(storage: &Storage, dice: &mut Dice) -> u64 {
    let tag = dice.pick(&[0, 1, LAST_TAG - 1, LAST_TAG]);
    match dice.between(0, 4) {
        0 => Link::new(tag, slot(storage, dice)).0 | 1 << dice.between(15, 31),
        1 => Link::new(tag, above(storage, dice)).0,
        2 => Link::new(tag, 0).0,
        3 => dice.throw(),
        _ => Link::new(tag, slot(storage, dice)).0,
    }
}

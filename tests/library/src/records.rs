//! Task records that are sound or idle, and the places that they may stand at.

use crate::sound::{sound_anchor, sound_link};
use crate::wild::{any_retries, wild_record};
use reference::dice::Dice;
use reference::tables::{Record, POP, PUSH};
use reference::word::{Anchor, Link, STABLE};

/// The places of a stabilise.
pub fn helping(place: u64) -> bool {
    (5..=10).contains(&place)
}

/// The kind of a call at a place: from 11 on there is only one.
pub fn kind_at(place: u64, kind: Option<u64>, dice: &mut Dice) -> u64 {
    match place {
        11 | 15..=17 => POP,
        12..=14 => PUSH,
        _ => kind.unwrap_or_else(|| dice.between(0, 1)),
    }
}

/// A place up to `last`: with one slot no Anchor is unstable, so that nobody stands at 5 to 10.
pub fn any_place(dice: &mut Dice, slots: u64, last: u64) -> u64 {
    loop {
        let place = dice.between(1, last);
        if slots > 1 || !helping(place) {
            return place;
        }
    }
}

/// Idle; its other fields are anything, for nobody looks at them.
pub fn idle_record(dice: &mut Dice) -> Record {
    let mut record = Record { retries: any_retries(dice), ..Record::default() };
    if dice.percent(50) {
        record = wild_record(dice);
        record.place = 0;
    }
    record
}

/// A sound record; at 5 to 10 there must be two slots.
pub fn busy_record(dice: &mut Dice, slots: u64, place: u64, kind: u64) -> Record {
    let helping = helping(place);
    let mut seen = sound_anchor(dice, slots);
    while helping && Anchor::unpack(seen).status == STABLE {
        seen = sound_anchor(dice, slots);
    }
    let mut link = sound_link(dice, slots);
    while matches!(place, 13 | 14) && Link(link).slot() == 0 {
        link = sound_link(dice, slots);
    }
    let held = if kind == PUSH { place <= 10 } else { place >= 15 };
    Record {
        place,
        kind,
        side: dice.between(0, 1),
        own: if held { dice.between(1, slots) } else { 0 },
        label: dice.throw() as u32,
        seen,
        neighbour: dice.between(0, slots),
        link,
        finishing: if kind == PUSH && helping { dice.between(0, 1) } else { 0 },
        retries: any_retries(dice),
    }
}

/// The record of a task that the call is not about: nobody looks at more than its place,
/// and the report at its count.
pub fn any_record(dice: &mut Dice, slots: u64) -> Record {
    let place = any_place(dice, slots, 17);
    let kind = kind_at(place, None, dice);
    match dice.between(0, 2) {
        0 => idle_record(dice),
        1 => wild_record(dice),
        _ => busy_record(dice, slots, place, kind),
    }
}

//! Numbers, words, records and controls of any contents, near what matters or far from it.

use reference::dice::Dice;
use reference::tables::{Control, Record};

const LAST_TAG: u64 = 0xffff_ffff;
const LAST_START_TAG: u64 = 4_294_967_262;

pub fn any_retries(dice: &mut Dice) -> u64 {
    dice.pick(&[0, 5, LAST_TAG - 1, LAST_TAG, LAST_TAG + 1, u64::MAX])
}

/// A number near what matters, or far from it, or one that 32 bits would make small.
pub fn wild(dice: &mut Dice, most: u64) -> u64 {
    match dice.between(0, 9) {
        0 => 0,
        1 => most + 1,
        2 => u64::MAX,
        3 => 1 << 32 | dice.between(0, most),
        _ => dice.between(0, most),
    }
}

/// An Anchor or link word with fields near what matters.
pub fn wild_word(dice: &mut Dice, slots: u64) -> u64 {
    let tag = dice.pick(&[0, 1, LAST_START_TAG, LAST_START_TAG + 1, LAST_TAG - 1, LAST_TAG]);
    let end = |dice: &mut Dice| match dice.between(0, 9) {
        0 => 0,
        1 => slots + 1,
        2 => 0x7fff,
        _ => dice.between(1, slots.max(1)),
    };
    let status = if dice.percent(60) { 0 } else { dice.between(1, 3) };
    let left = if dice.percent(40) { 0 } else { end(dice) };
    tag << 32 | status << 30 | (left & 0x7fff) << 15 | end(dice) & 0x7fff
}

pub fn wild_record(dice: &mut Dice) -> Record {
    Record {
        place: wild(dice, 17),
        kind: wild(dice, 1),
        side: wild(dice, 1),
        own: wild(dice, 3),
        label: dice.throw() as u32,
        seen: wild_word(dice, 3),
        neighbour: wild(dice, 3),
        link: wild_word(dice, 3),
        finishing: wild(dice, 1),
        retries: any_retries(dice),
    }
}

pub fn wild_control(dice: &mut Dice) -> Control {
    Control {
        tasks: wild(dice, 16),
        slots: wild(dice, 1_023),
        anchor: wild_word(dice, 3),
        pooled: wild(dice, 1),
        head: wild_word(dice, 3),
    }
}

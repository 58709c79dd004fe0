//! A queue in the tables: the slots that the walk of the labels waiting meets, and damage on its way.

use crate::sound::{sound_link, Scene};
use crate::wild::wild_word;
use crate::world::Call;
use reference::dice::Dice;
use reference::word::{Anchor, LPUSH, STABLE};

/// Lets the walk meet `least` slots or more, and gives them in its order. What it does not look at
/// holds anything in half of the scenes: the links of the other direction, those of slots that
/// don't wait, and the link of the slot where it stops.
pub fn line_up(scene: &mut Scene, dice: &mut Dice, least: u64) -> Vec<u64> {
    let slots = scene.slots;
    let order = some_slots(dice, slots, least);
    let status = if order.len() < 2 { STABLE } else { dice.between(STABLE, LPUSH) };
    let (first, last) = match order[..] {
        [] => (0, 0),
        [first, .., last] | [first @ last] => (first, last),
    };
    let from_left = status == LPUSH;
    let (left, right) = if from_left { (first, last) } else { (last, first) };
    let tag = Anchor::unpack(scene.world.control.anchor).tag;
    scene.world.control.anchor = Anchor { tag, status, left, right }.pack();
    if dice.percent(50) {
        for row in 0..=slots as usize {
            scene.world.lefts.held[row] = wild_word(dice, slots);
            scene.world.rights.held[row] = wild_word(dice, slots);
        }
    }
    for row in 0..=slots as usize {
        if dice.percent(70) {
            scene.world.labels.held[row] = common_label(dice);
        }
    }
    for pair in order.windows(2) {
        let tag = sound_link(dice, slots) >> 32;
        *link(scene, pair[0]) = tag << 32 | pair[1];
    }
    order
}

/// From `least` slots to all of them, in any order; all of them now and then.
fn some_slots(dice: &mut Dice, slots: u64, least: u64) -> Vec<u64> {
    let count = match dice.between(0, 9) {
        0 => slots,
        1 | 2 => dice.between(least, slots),
        _ => dice.between(least, slots.min(least + 5)),
    };
    let mut order: Vec<u64> = (1..=slots).collect();
    for at in 0..count {
        order.swap(at as usize, dice.between(at, slots - 1) as usize);
    }
    order.truncate(count as usize);
    order
}

/// A label that others are like: equal ones are common, and so are those that differ by a multiple
/// of 1,024.
pub fn common_label(dice: &mut Dice) -> u32 {
    let high = if dice.percent(80) { 0 } else { dice.between(0, 0x3f_ffff) as u32 };
    high << 10 | dice.pick(&[0, 1, 5, 63, 64, 1_023])
}

/// Up to 32 labels asked for.
pub fn any_question(dice: &mut Dice) -> Call {
    let asked = std::array::from_fn(|_| match dice.percent(80) {
        true => common_label(dice),
        false => dice.throw() as u32,
    });
    let count = if dice.percent(20) { 32 } else { dice.between(0, 32) as usize };
    Call::Find { asked, count }
}

/// The link word that the walk follows from a slot.
fn link(scene: &mut Scene, slot: u64) -> &mut u64 {
    let from_left = Anchor::unpack(scene.world.control.anchor).status == LPUSH;
    let links = if from_left { &mut scene.world.rights } else { &mut scene.world.lefts };
    &mut links.held[slot as usize]
}

/// A damage on the way, before the other end: `edit` makes the link word of the slot at a place of
/// the walk, which has two slots or more.
pub fn lead_astray(
    scene: &mut Scene,
    dice: &mut Dice,
    edit: fn(u64, &[u64], &mut Dice, u64) -> u64,
) {
    let order = line_up(scene, dice, 2);
    let at = dice.between(0, order.len() as u64 - 2) as usize;
    let slots = scene.slots;
    let word = link(scene, order[at]);
    *word = edit(*word, &order[..=at], dice, slots);
}

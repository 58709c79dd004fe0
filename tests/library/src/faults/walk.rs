//! 34 for the walk of the labels waiting, and 12 for tables too short for them.

use super::{fault, unstable, Fault, Group};
use crate::line::{lead_astray, line_up};
use crate::sound::Scene;
use crate::world::Lent;
use reference::dice::Dice;

/// A label or more waits; `short` picks the table that has one entry too few, or none.
fn too_short(scene: &mut Scene, dice: &mut Dice, short: fn(&mut Scene) -> &mut usize) {
    let waiting = line_up(scene, dice, 1).len();
    scene.world.slots_out = Lent::new(vec![u64::MAX; waiting + 2], waiting);
    scene.world.labels_out = Lent::new(vec![u32::MAX; waiting + 2], waiting);
    *short(scene) = if dice.percent(70) { waiting - 1 } else { 0 };
}

pub const FAULTS: &[Fault] = &[
    unstable(fault(Group::Walk, "the walk meets a bit of 31-15", |s, d| {
        lead_astray(s, d, |word, _, d, _| word | 1 << d.between(15, 31));
    })),
    unstable(fault(Group::Walk, "the walk meets a slot above slots", |s, d| {
        lead_astray(s, d, |word, _, d, slots| word & !0x7fff | d.pick(&[slots + 1, 0x7fff]));
    })),
    unstable(fault(Group::Walk, "the walk meets slot 0", |s, d| {
        lead_astray(s, d, |word, _, _, _| word & !0x7fff);
    })),
    unstable(fault(Group::Walk, "the walk meets a slot again", |s, d| {
        lead_astray(s, d, |word, met, d, _| {
            word & !0x7fff | met[d.between(0, met.len() as u64 - 1) as usize]
        });
    })),
    fault(Group::Room, "no room for the slots", |s, d| {
        too_short(s, d, |s| &mut s.world.slots_out.count);
    }),
    fault(Group::Room, "no room for the labels", |s, d| {
        too_short(s, d, |s| &mut s.world.labels_out.count);
    }),
];

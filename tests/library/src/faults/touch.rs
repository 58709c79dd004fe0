//! 34 for what the step touches, and changes that fail at the last tag, which are no faults.

use super::{anchor, at, unstable, Fault, HIGH, LAST_TAG};
use crate::sound::{sound_anchor, Scene};
use reference::dice::Dice;
use reference::tables::{POP, PUSH};
use reference::word::{Anchor, Link, LPUSH, RPUSH};

/// The Anchor as read is the Anchor: a change will be made.
fn current(scene: &mut Scene, edit: impl Fn(&mut Anchor)) {
    let mut anchor = Anchor::unpack(scene.record().seen);
    edit(&mut anchor);
    scene.record().seen = anchor.pack();
    scene.world.control.anchor = anchor.pack();
}

/// Spoils the word in a row of a link table: bits 31-15, or the slot.
fn spoil(scene: &mut Scene, dice: &mut Dice, right: bool, row: u64, bits: bool) {
    let slots = scene.slots;
    let links = if right { &mut scene.world.rights } else { &mut scene.world.lefts };
    let word = &mut links.held[row as usize];
    match bits {
        true => *word |= 1 << dice.between(15, 31),
        false => *word = *word & !0x7fff | dice.pick(&[slots + 1, 0x7fff]),
    }
}

/// Side, end as read and whether that side is right, as the record's place sees them.
fn viewed(scene: &mut Scene) -> (u64, bool) {
    let record = *scene.record();
    let seen = Anchor::unpack(record.seen);
    let helping = (5..=10).contains(&record.place);
    let right = if helping { seen.status == RPUSH } else { record.side == 1 };
    (if right { seen.right } else { seen.left }, right)
}

fn spoil_own(scene: &mut Scene, dice: &mut Dice, bits: bool) {
    let (_, right) = viewed(scene);
    let own = scene.record().own;
    spoil(scene, dice, !right, own, bits);
}

fn spoil_inward(scene: &mut Scene, dice: &mut Dice, bits: bool) {
    let (end, right) = viewed(scene);
    spoil(scene, dice, !right, end, bits);
}

fn spoil_outward(scene: &mut Scene, dice: &mut Dice, bits: bool) {
    let (_, right) = viewed(scene);
    let neighbour = scene.record().neighbour;
    spoil(scene, dice, right, neighbour, bits);
}

/// Another task was faster, and the word as read has the last tag: the compare comes first, so that
/// the change fails as any other.
pub fn outrun(scene: &mut Scene, dice: &mut Dice) {
    match scene.record().place {
        9 => outrun_link(scene, dice),
        14 | 17 => outrun_head(scene, dice),
        _ => outrun_anchor(scene, dice),
    }
}

fn outrun_link(scene: &mut Scene, dice: &mut Dice) {
    let (_, right) = viewed(scene);
    scene.record().link |= LAST_TAG << 32;
    let record = *scene.record();
    let links = if right { &mut scene.world.rights } else { &mut scene.world.lefts };
    links.held[record.neighbour as usize] = record.link ^ dice.pick(&[1, 1 << 32]);
}

fn outrun_head(scene: &mut Scene, dice: &mut Dice) {
    scene.record().link |= LAST_TAG << 32;
    scene.world.control.head = scene.record().link ^ dice.pick(&[1, 1 << 15, 1 << 32]);
}

fn outrun_anchor(scene: &mut Scene, dice: &mut Dice) {
    scene.record().seen |= LAST_TAG << 32;
    let seen = scene.record().seen;
    scene.world.control.anchor = seen;
    while scene.world.control.anchor == seen {
        scene.world.control.anchor = sound_anchor(dice, scene.slots);
        let tag = dice.pick(&[LAST_TAG - 1, LAST_TAG]);
        anchor(scene, |a| a.tag = tag);
    }
}

pub const FAULTS: &[Fault] = &[
    at(3, POP, "3: a pop without an end", |s, _| s.record().seen &= !0x3fff_ffff),
    at(7, PUSH, "7: no neighbour", |s, _| s.record().neighbour = 0),
    at(9, PUSH, "9: no neighbour", |s, _| s.record().neighbour = 0),
    at(9, POP, "9: no neighbour, row 0 as read", |s, _| {
        s.record().neighbour = 0;
        (s.world.lefts.held[0], s.world.rights.held[0]) = (1, 1);
        s.record().link = 1;
    }),
    at(11, POP, "11: no end", |s, _| s.record().seen &= !0x3fff_ffff),
    at(3, PUSH, "3: a push meets a bit of 31-15", |s, d| spoil_own(s, d, true)),
    at(3, PUSH, "3: a push meets a slot above slots", |s, d| spoil_own(s, d, false)),
    at(3, POP, "3: a pop meets a bit of 31-15", |s, d| spoil_inward(s, d, true)),
    at(3, POP, "3: a pop meets a slot above slots", |s, d| spoil_inward(s, d, false)),
    at(5, PUSH, "5: meets a bit of 31-15", |s, d| spoil_inward(s, d, true)),
    at(5, POP, "5: meets a slot above slots", |s, d| spoil_inward(s, d, false)),
    at(7, POP, "7: meets a bit of 31-15", |s, d| spoil_outward(s, d, true)),
    at(7, PUSH, "7: meets a slot above slots", |s, d| spoil_outward(s, d, false)),
    unstable(at(2, PUSH, "2: a push leaves equal ends unstable", |s, _| {
        current(s, |a| (a.status, a.left, a.right) = (RPUSH, 1, 2));
    })),
    unstable(at(2, POP, "2: a pop leaves an empty queue unstable", |s, _| {
        current(s, |a| (a.status, a.left, a.right) = (LPUSH, 1, 2));
    })),
    at(4, PUSH, "4: a push leaves one end null", |s, _| {
        current(s, |a| (a.left, a.right) = (0, 0));
    }),
    at(4, PUSH, "4: a push of the other end", |s, _| {
        let own = s.record().own;
        current(s, |a| (a.left, a.right) = (own, own));
    }),
    at(4, POP, "4: a pop leaves one end null", |s, _| {
        s.record().neighbour = 0;
        current(s, |_| {});
    }),
    unstable(at(4, POP, "4: a pop leaves equal ends unstable", |s, _| {
        current(s, |a| (a.status, a.left, a.right) = (RPUSH, 1, 2));
        s.record().neighbour = if s.record().side == 1 { 1 } else { 2 };
    })),
    at(2, PUSH, "2: a push at the last tag", |s, _| current(s, |a| a.tag = LAST_TAG)),
    at(2, POP, "2: a pop at the last tag", |s, _| current(s, |a| a.tag = LAST_TAG)),
    at(4, PUSH, "4: a push at the last tag", |s, _| current(s, |a| a.tag = LAST_TAG)),
    at(4, POP, "4: a pop at the last tag", |s, _| current(s, |a| a.tag = LAST_TAG)),
    at(10, PUSH, "10: a push at the last tag", |s, _| current(s, |a| a.tag = LAST_TAG)),
    at(10, POP, "10: a pop at the last tag", |s, _| current(s, |a| a.tag = LAST_TAG)),
    at(12, PUSH, "12: a head with a bit of 31-15", |s, d| {
        s.world.control.head |= 1 << d.between(15, 31);
    }),
    at(12, PUSH, "12: an empty head with a bit of 31-15", |s, d| {
        s.world.control.head &= !0x7fff;
        s.world.control.head |= 1 << d.between(15, 31);
    }),
    at(12, PUSH, "12: a head above slots", |s, d| {
        s.world.control.head = Link::new(0, d.pick(&[s.slots + 1, 0x7fff])).0;
    }),
    at(15, POP, "15: a head with a bit of 31-15", |s, d| {
        s.world.control.head |= 1 << d.between(15, 31);
    }),
    at(15, POP, "15: a head above slots", |s, d| {
        s.world.control.head = Link::new(0, d.pick(&[s.slots + 1, 0x7fff])).0;
    }),
    at(13, PUSH, "13: a next above slots", |s, d| {
        let row = Link(s.record().link).slot() as usize;
        s.world.next.held[row] = d.pick(&[s.slots + 1, HIGH, HIGH + 1, u64::MAX]);
    }),
    at(14, PUSH, "14: a head at the last tag", |s, _| {
        s.record().link |= LAST_TAG << 32;
        s.world.control.head = s.record().link;
    }),
    at(17, POP, "17: a head at the last tag", |s, _| {
        s.record().link |= LAST_TAG << 32;
        s.world.control.head = s.record().link;
    }),
    at(9, PUSH, "9: a link at the last tag", |s, _| {
        let (_, right) = viewed(s);
        s.record().link |= LAST_TAG << 32;
        let record = *s.record();
        let links = if right { &mut s.world.rights } else { &mut s.world.lefts };
        links.held[record.neighbour as usize] = record.link;
    }),
];

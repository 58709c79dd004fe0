//! Scenes: sound tables with a call that is accepted on them, though no history led there.

use crate::line::{any_question, line_up};
use crate::records::{any_place, any_record, busy_record, helping, idle_record, kind_at};
use crate::wild::{wild_control, wild_word};
use crate::world::{Call, Export, Lent, World};
use reference::dice::Dice;
use reference::tables::{Control, Record, NAMED, POOLED, PUSH};
use reference::word::{Anchor, LPUSH, RPUSH, STABLE};

const LAST_TAG: u64 = 0xffff_ffff;
const LAST_START_TAG: u64 = 4_294_967_262;

/// Entries held behind those lent.
const GUARDS: usize = 3;

pub struct Scene {
    pub world: World,
    pub call: Call,
    pub slots: u64,
    pub tasks: u64,
}

/// Which call a scene is to have, in which way of opening, and a step at which place and of
/// which kind; none: it does not matter.
#[derive(Clone, Copy, Debug, PartialEq)]
pub struct Wanted {
    pub export: Export,
    pub pooled: Option<bool>,
    pub place: Option<u64>,
    pub kind: Option<u64>,
}

impl Wanted {
    pub fn any(export: Export) -> Wanted {
        Wanted { export, pooled: None, place: None, kind: None }
    }

    /// A push is accepted in one of the ways only, and places from 12 on are of one.
    fn way(self, dice: &mut Dice) -> bool {
        match self.export {
            Export::Push => false,
            Export::PushPooled => true,
            _ if self.place.is_some_and(|place| place > 11) => true,
            _ => self.pooled.unwrap_or_else(|| dice.percent(50)),
        }
    }
}

impl Scene {
    /// The record that the call is about.
    pub fn record(&mut self) -> &mut Record {
        match self.call {
            Call::StepRecord
            | Call::Open { .. }
            | Call::OpenPooled { .. }
            | Call::Report
            | Call::Find { .. }
            | Call::Waiting => &mut self.world.one,
            Call::Push { task, .. }
            | Call::PushPooled { task, .. }
            | Call::Pop { task, .. }
            | Call::Step { task }
            | Call::Run { task, .. }
            | Call::StepRow { task } => &mut self.world.records.held[task],
        }
    }

    /// A scene with `least` slots or more.
    pub fn draw(dice: &mut Dice, wanted: Wanted, least: u64) -> Scene {
        let slots = few_or_many(dice).max(least);
        let tasks = dice.between(1, 16);
        let pooled = wanted.way(dice);
        let mut world = sound_world(dice, tasks, slots, pooled);
        let task = dice.between(0, tasks - 1) as usize;
        let (side, label) = (dice.between(0, 1), dice.throw() as u32);
        let call = match wanted.export {
            Export::Open => {
                world.control = wild_control(dice);
                Call::Open { tasks, slots, tag: label }
            }
            Export::OpenPooled => {
                world.control = wild_control(dice);
                Call::OpenPooled { tasks, slots, tag: label }
            }
            Export::Push => {
                world.records.held[task] = idle_record(dice);
                let slot = dice.between(1, slots);
                world.marks.held[slot as usize / 64] &= !(1 << (slot % 64));
                Call::Push { task, side, slot, label }
            }
            Export::PushPooled => {
                world.records.held[task] = idle_record(dice);
                Call::PushPooled { task, side, label }
            }
            Export::Pop => {
                world.records.held[task] = idle_record(dice);
                Call::Pop { task, side }
            }
            Export::Step => Call::Step { task },
            Export::Run => Call::Run { task, most: 1 },
            Export::StepRecord if dice.percent(50) => Call::StepRow { task },
            Export::StepRecord => Call::StepRecord,
            Export::Report => Call::Report,
            Export::Find => any_question(dice),
            Export::Waiting => Call::Waiting,
            other => unreachable!("{other:?} has inputs of its own"),
        };
        let mut scene = Scene { world, call, slots, tasks };
        if let Export::Report | Export::Find | Export::Waiting = wanted.export {
            let waiting = line_up(&mut scene, dice, 0).len();
            scene.make_room(dice, waiting);
        }
        if let Export::Step | Export::Run | Export::StepRecord = wanted.export {
            let last = if pooled { 17 } else { 11 };
            let place = wanted.place.unwrap_or_else(|| any_place(dice, slots, last));
            let kind = kind_at(place, wanted.kind, dice);
            scene.ready(dice, place, kind);
        }
        scene
    }

    /// Room for so many labels waiting and their slots, or for more.
    fn make_room(&mut self, dice: &mut Dice, waiting: usize) {
        let spare = |dice: &mut Dice| dice.pick(&[0, 0, 1, 2]);
        let count = waiting + spare(dice);
        self.world.slots_out = Lent::new((0..count + 2).map(|_| dice.throw()).collect(), count);
        let count = waiting + spare(dice);
        let labels = (0..count + 2).map(|_| dice.throw() as u32);
        self.world.labels_out = Lent::new(labels.collect(), count);
    }

    pub fn is_pooled(&self) -> bool {
        self.world.control.pooled == POOLED
    }

    /// Puts the call's record at a place so that its step is accepted; the words that it compares
    /// are as read in half of the scenes.
    fn ready(&mut self, dice: &mut Dice, place: u64, kind: u64) {
        let slots = self.slots;
        let mut record = busy_record(dice, slots, place, kind);
        let seen = seen_at(dice, slots, place);
        record.seen = seen.pack();
        record.neighbour = dice.between(1, slots);
        let push = kind == PUSH && place == 4;
        if push && slots == 1 {
            // No two ends would be different: only a change that fails is accepted.
            self.world.control.anchor = record.seen ^ 1 << 32;
        } else if dice.percent(50) {
            self.world.control.anchor = record.seen;
        }
        let far = if record.side == 1 { seen.left } else { seen.right };
        while push && slots > 1 && record.own == far {
            record.own = dice.between(1, slots);
        }
        if place == 9 {
            record.link = sound_link(dice, slots);
            if dice.percent(50) {
                let right = seen.status == RPUSH;
                let links = if right { &mut self.world.rights } else { &mut self.world.lefts };
                links.held[record.neighbour as usize] = record.link;
            }
        }
        if matches!(place, 14 | 17) && dice.percent(50) {
            self.world.control.head = record.link;
        }
        if matches!(place, 12 | 15) && dice.percent(20) {
            self.world.control.head &= !0x7fff;
        }
        *self.record() = record;
    }
}

/// An Anchor as read with which the step at a place is accepted.
fn seen_at(dice: &mut Dice, slots: u64, place: u64) -> Anchor {
    let status = if helping(place) { dice.between(RPUSH, LPUSH) } else { STABLE };
    let (left, right) = two_slots(dice, slots);
    let tag = dice.pick(&[0, 7, LAST_TAG - 1, LAST_START_TAG]);
    let seen = Anchor { tag, status, left, right };
    if place <= 2 && dice.percent(50) {
        return Anchor { left: 0, right: 0, ..seen };
    }
    if place <= 2 && dice.percent(50) {
        return Anchor { right: left, ..seen };
    }
    seen
}

fn few_or_many(dice: &mut Dice) -> u64 {
    match dice.percent(80) {
        true => dice.pick(&[1, 2, 3, 4, 5, 63, 64, 65]),
        false => dice.pick(&[127, 128, 129, 1_022, 1_023]),
    }
}

/// Two slots, different ones where there are two.
fn two_slots(dice: &mut Dice, slots: u64) -> (u64, u64) {
    if slots == 1 {
        return (1, 1);
    }
    let first = dice.between(1, slots);
    let second = dice.between(1, slots - 1);
    (first, if second < first { second } else { second + 1 })
}

/// An Anchor on which a start is accepted.
pub fn sound_anchor(dice: &mut Dice, slots: u64) -> u64 {
    let tag = dice.pick(&[0, 1, 1_000, LAST_START_TAG - 1, LAST_START_TAG]);
    let (left, right) = two_slots(dice, slots);
    match dice.between(0, if slots == 1 { 2 } else { 3 }) {
        0 => Anchor { tag, status: STABLE, left: 0, right: 0 },
        1 => Anchor { tag, status: STABLE, left, right: left },
        2 => Anchor { tag, status: STABLE, left, right },
        _ => Anchor { tag, status: dice.between(RPUSH, LPUSH), left, right },
    }
    .pack()
}

pub fn sound_link(dice: &mut Dice, slots: u64) -> u64 {
    let tag = dice.pick(&[0, 1, 77, LAST_TAG - 1]);
    tag << 32 | dice.between(0, slots)
}

fn sound_world(dice: &mut Dice, tasks: u64, slots: u64, pooled: bool) -> World {
    let rows = slots as usize + 1;
    let words = slots as usize / 64 + 1;
    // More may be lent than is needed; what is not needed must keep its values too.
    let table = |dice: &mut Dice, needed: usize| (needed + GUARDS, needed + dice.pick(&[0, 1]));
    let (held, count) = table(dice, rows);
    let lefts = Lent::new((0..held).map(|_| sound_link(dice, slots)).collect(), count);
    let (held, count) = table(dice, rows);
    let rights = Lent::new((0..held).map(|_| sound_link(dice, slots)).collect(), count);
    let (held, count) = table(dice, rows);
    let labels = Lent::new((0..held).map(|_| dice.throw() as u32).collect(), count);
    let (held, count) = table(dice, words);
    let marks = Lent::new((0..held).map(|_| dice.throw()).collect(), count);
    let (held, count) = table(dice, tasks as usize);
    let records = Lent::new((0..held).map(|_| any_record(dice, slots)).collect(), count);
    let (held, count) = table(dice, rows);
    let next = Lent::new((0..held).map(|_| dice.between(0, slots)).collect(), count);
    let anchor = sound_anchor(dice, slots);
    let one = any_record(dice, slots);
    // Nobody looks at the head of a named queue.
    let head = if pooled { sound_link(dice, slots) } else { wild_word(dice, slots) };
    let pooled = if pooled { POOLED } else { NAMED };
    let control = Control { tasks, slots, anchor, pooled, head };
    let (slots_out, labels_out) = (Lent::new(vec![], 0), Lent::new(vec![], 0));
    World { control, records, one, lefts, rights, labels, marks, next, slots_out, labels_out }
}

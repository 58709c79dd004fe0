//! What is asked of the input, of control and of the task: 10 to 15, 41, 45, 34 for control, 30 to
//! 33.

use super::{
    anchor, busy, fault, named, pooled, Fault, Group, HIGH, LAST_TAG, SHORT_IN_A_WRONG_PUSH,
};
use crate::sound::Scene;
use crate::world::Call;
use reference::dice::Dice;
use reference::tables::{NAMED, POOLED};
use reference::word::{Anchor, LPUSH, RPUSH};

/// A table of `needed` entries cut short: by one, or wholly.
fn cut(dice: &mut Dice, count: &mut usize, null: &mut bool, needed: usize) {
    *count = if dice.percent(50) { needed - 1 } else { 0 };
    *null = dice.percent(50);
}

/// The entries that a table needs: the opening's numbers, or control's.
fn needed(scene: &Scene) -> (usize, usize, usize) {
    let (tasks, slots) = (scene.tasks as usize, scene.slots as usize);
    (tasks, slots + 1, slots / 64 + 1)
}

fn set_task(scene: &mut Scene, number: usize) {
    match &mut scene.call {
        Call::Push { task, .. }
        | Call::PushPooled { task, .. }
        | Call::Pop { task, .. }
        | Call::Step { task }
        | Call::Run { task, .. } => *task = number,
        _ => unreachable!(),
    }
}

fn set_side(scene: &mut Scene, number: u64) {
    match &mut scene.call {
        Call::Push { side, .. } | Call::PushPooled { side, .. } | Call::Pop { side, .. } => {
            *side = number
        }
        _ => unreachable!(),
    }
}

fn set_slot(scene: &mut Scene, number: u64) {
    match &mut scene.call {
        Call::Push { slot, .. } => *slot = number,
        _ => unreachable!(),
    }
}

fn set_opening(scene: &mut Scene, new_tasks: Option<u64>, new_slots: Option<u64>) {
    match &mut scene.call {
        Call::Open { tasks, slots, .. } | Call::OpenPooled { tasks, slots, .. } => {
            *tasks = new_tasks.unwrap_or(*tasks);
            *slots = new_slots.unwrap_or(*slots);
        }
        _ => unreachable!(),
    }
}

pub const FAULTS: &[Fault] = &[
    fault(Group::Tasks, "opening with 0 tasks", |s, _| set_opening(s, Some(0), None)),
    fault(Group::Tasks, "opening with 17 tasks", |s, _| set_opening(s, Some(17), None)),
    fault(Group::Tasks, "opening with 2^32 + 1 tasks", |s, _| set_opening(s, Some(HIGH + 1), None)),
    fault(Group::Slots, "opening with 0 slots", |s, _| set_opening(s, None, Some(0))),
    fault(Group::Slots, "opening with 1,024 slots", |s, _| set_opening(s, None, Some(1_024))),
    fault(Group::Slots, "opening with 2^32 + 1 slots", |s, _| set_opening(s, None, Some(HIGH + 1))),
    // ---- 34 for control and Anchor.
    fault(Group::Control, "control: 0 tasks", |s, _| s.world.control.tasks = 0),
    fault(Group::Control, "control: 17 tasks", |s, _| s.world.control.tasks = 17),
    fault(Group::Control, "control: 2^32 + 1 tasks", |s, _| s.world.control.tasks = HIGH + 1),
    fault(Group::Control, "control: 0 slots", |s, _| {
        s.world.control.slots = 0;
        anchor(s, |a| *a = Anchor { tag: a.tag, status: 0, left: 0, right: 0 });
    }),
    fault(Group::Control, "control: 1,024 slots", |s, _| s.world.control.slots = 1_024),
    fault(Group::Control, "control: 2^32 more slots", |s, _| s.world.control.slots += HIGH),
    fault(Group::Control, "control: pooled 2", |s, _| s.world.control.pooled = 2),
    fault(Group::Control, "control: pooled 2^32 more", |s, _| s.world.control.pooled += HIGH),
    fault(Group::Control, "Anchor: status 3", |s, _| {
        let right = s.slots.min(2);
        anchor(s, |a| (a.status, a.left, a.right) = (3, 1, right));
    }),
    fault(Group::Control, "Anchor: left end above slots", |s, d| {
        let end = d.pick(&[s.slots + 1, 0x7fff]);
        anchor(s, |a| (a.left, a.right) = (end, 1));
    }),
    fault(Group::Control, "Anchor: right end above slots", |s, d| {
        let end = d.pick(&[s.slots + 1, 0x7fff]);
        anchor(s, |a| (a.left, a.right) = (1, end));
    }),
    fault(Group::Control, "Anchor: left end null alone", |s, _| {
        anchor(s, |a| (a.left, a.right) = (0, 1))
    }),
    fault(Group::Control, "Anchor: right end null alone", |s, _| {
        anchor(s, |a| (a.left, a.right) = (1, 0))
    }),
    fault(Group::Control, "Anchor: RPUSH with equal ends", |s, d| {
        let end = d.between(1, s.slots);
        anchor(s, |a| (a.status, a.left, a.right) = (RPUSH, end, end));
    }),
    fault(Group::Control, "Anchor: LPUSH with equal ends", |s, d| {
        let end = d.between(1, s.slots);
        anchor(s, |a| (a.status, a.left, a.right) = (LPUSH, end, end));
    }),
    fault(Group::Control, "Anchor: unstable and empty", |s, d| {
        let status = d.between(RPUSH, LPUSH);
        anchor(s, |a| (a.status, a.left, a.right) = (status, 0, 0));
    }),
    // ---- 45, 12.
    fault(Group::Many, "33 labels asked for", |s, _| match &mut s.call {
        Call::Find { count, .. } => *count = 33,
        _ => unreachable!(),
    }),
    fault(Group::Short, "short records", |s, d| {
        let (tasks, _, _) = needed(s);
        cut(d, &mut s.world.records.count, &mut s.world.records.null, tasks);
    }),
    fault(Group::Short, "short lefts", |s, d| {
        let (_, rows, _) = needed(s);
        cut(d, &mut s.world.lefts.count, &mut s.world.lefts.null, rows);
    }),
    fault(Group::Short, "short rights", |s, d| {
        let (_, rows, _) = needed(s);
        cut(d, &mut s.world.rights.count, &mut s.world.rights.null, rows);
    }),
    fault(Group::Short, "short labels", |s, d| {
        let (_, rows, _) = needed(s);
        cut(d, &mut s.world.labels.count, &mut s.world.labels.null, rows);
    }),
    fault(Group::Short, "short marks", |s, d| {
        let (_, _, words) = needed(s);
        cut(d, &mut s.world.marks.count, &mut s.world.marks.null, words);
    }),
    pooled(fault(Group::Short, "short next", |s, d| {
        let (_, rows, _) = needed(s);
        cut(d, &mut s.world.next.count, &mut s.world.next.null, rows);
    })),
    named(fault(Group::Short, SHORT_IN_A_WRONG_PUSH, |s, d| {
        let (_, rows, _) = needed(s);
        s.world.control.pooled = POOLED;
        cut(d, &mut s.world.next.count, &mut s.world.next.null, rows);
    })),
    // ---- 13, 14, 41, 15.
    fault(Group::Task, "task: one too high", |s, _| set_task(s, s.tasks as usize)),
    fault(Group::Task, "task: 2^32", |s, _| set_task(s, HIGH as usize)),
    fault(Group::Task, "task: the highest number", |s, _| set_task(s, usize::MAX)),
    fault(Group::Side, "side 2", |s, _| set_side(s, 2)),
    fault(Group::Side, "side 2^32 + 1", |s, _| set_side(s, HIGH + 1)),
    fault(Group::Side, "side: the highest number", |s, _| set_side(s, u64::MAX)),
    named(fault(Group::WrongPush, "a slot named in a pooled queue", |s, _| {
        s.world.control.pooled = POOLED;
    })),
    pooled(fault(Group::WrongPush, "no slot named in the other", |s, _| {
        s.world.control.pooled = NAMED;
    })),
    pooled(fault(
        Group::WrongPush,
        "no slot named in the other, whose next is not looked at",
        |s, d| {
            let (_, rows, _) = needed(s);
            s.world.control.pooled = NAMED;
            cut(d, &mut s.world.next.count, &mut s.world.next.null, rows);
        },
    )),
    fault(Group::Slot, "slot 0", |s, _| set_slot(s, 0)),
    fault(Group::Slot, "slot: one too high", |s, _| set_slot(s, s.slots + 1)),
    fault(Group::Slot, "slot 2^32 + 1", |s, _| set_slot(s, HIGH + 1)),
    fault(Group::Slot, "slot: the highest number", |s, _| set_slot(s, u64::MAX)),
    // ---- 30, 31, 32, 33.
    fault(Group::Busy, "a busy task", |s, d| busy(s, d, None, None)),
    fault(Group::Idle, "an idle task", |s, _| s.record().place = 0),
    fault(Group::Taken, "a marked slot", |s, _| {
        if let Call::Push { slot, .. } = s.call {
            s.world.marks.held[slot as usize / 64] |= 1 << (slot % 64);
        }
    }),
    fault(Group::Worn, "Anchor tag 4,294,967,263", |s, _| anchor(s, |a| a.tag = 4_294_967_263)),
    fault(Group::Worn, "Anchor tag 4,294,967,295", |s, _| anchor(s, |a| a.tag = LAST_TAG)),
];

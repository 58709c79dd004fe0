//! Histories: an opening, then starts and steps of all tasks in any order, refused ones among them.
//! Every line of the route must be taken, on both sides and in both ways of opening.

use crate::line::{any_question, common_label};
use crate::ours::by_library;
use crate::tally::Tally;
use crate::world::{Call, Export, Lent, Told, World};
use reference::dice::Dice;
use reference::tables::{Control, Record, NAMED, POOLED, POP, PUSH};
use reference::word::{Anchor, RPUSH};
use std::collections::BTreeSet;
use zeppolecape::{POOLED_POP_STEPS, POOLED_PUSH_STEPS, POP_STEPS, PUSH_STEPS};

/// A step taken: pooled, kind, place, side as the place sees it, finishing; then code and next
/// place.
type Line = (u64, u64, u64, u64, u64, u32, u64);

const RUNNING: u32 = 1;
const PUSHED: (u32, u64) = (2, 0);
const EMPTY: (u32, u64) = (3, 0);
const POPPED: (u32, u64) = (4, 0);
const NO_FREE_SLOT: (u32, u64) = (5, 0);

fn route() -> BTreeSet<Line> {
    route_of(NAMED).union(&route_of(POOLED)).copied().collect()
}

/// Document 01's column "next", in full, with a failed 2 or 4 that goes on as 1 (#106), and the
/// six places of a pooled queue (#104).
fn route_of(way: u64) -> BTreeSet<Line> {
    let mut lines = BTreeSet::new();
    let mut add = |kind, place, finishing, ends: &[(u32, u64)]| {
        for side in [0, 1] {
            for (code, next) in ends {
                lines.insert((way, kind, place, side, finishing, *code, *next));
            }
        }
    };
    let to = |place: u64| (RUNNING, place);
    for place in [1, 2, 4] {
        add(PUSH, place, 0, &[to(2), to(3), to(5)]);
        add(POP, place, 0, &[EMPTY, to(2), to(3), to(5)]);
    }
    add(PUSH, 2, 0, &[PUSHED]);
    add(POP, 2, 0, &[to(11)]);
    add(PUSH, 3, 0, &[to(4)]);
    add(POP, 3, 0, &[to(4)]);
    add(POP, 4, 0, &[to(11)]);
    if way == NAMED {
        add(POP, 11, 0, &[POPPED]);
    } else {
        add(PUSH, 12, 0, &[to(13), NO_FREE_SLOT]);
        add(PUSH, 13, 0, &[to(14)]);
        add(PUSH, 14, 0, &[to(1), to(12)]);
        add(POP, 11, 0, &[to(15)]);
        add(POP, 15, 0, &[to(16)]);
        add(POP, 16, 0, &[to(17)]);
        add(POP, 17, 0, &[POPPED, to(15)]);
    }
    for (kind, finishing, leave) in [(PUSH, 1, PUSHED), (PUSH, 0, to(1)), (POP, 0, to(1))] {
        add(kind, 5, finishing, &[to(6)]);
        add(kind, 6, finishing, &[to(7), leave]);
        add(kind, 7, finishing, &[to(8), to(10)]);
        add(kind, 8, finishing, &[to(9), leave]);
        add(kind, 9, finishing, &[to(10), leave]);
        add(kind, 10, finishing, &[leave]);
    }
    lines
}

fn line(way: u64, record: &Record, told: Told) -> Option<Line> {
    let Told::Reply(code, _, value) = told else { return None };
    let helping = (5..=10).contains(&record.place);
    let named = u64::from(Anchor::unpack(record.seen).status == RPUSH);
    let side = if helping { named } else { record.side };
    let next = if code == RUNNING { value } else { 0 };
    (code < 10).then_some((way, record.kind, record.place, side, record.finishing, code, next))
}

fn lent<T: Clone>(held: usize, count: usize, filler: T) -> Lent<T> {
    Lent::new(vec![filler; held], count)
}

/// Tables with junk in them, before an opening; a named queue needs no next table.
fn unopened(tasks: usize, slots: usize, next_rows: usize) -> World {
    let idle = Record { retries: 94, ..Record::default() };
    let junk = Record { place: 99, kind: 98, side: 97, own: 96, label: 95, ..idle };
    World {
        control: Control { tasks: 7, slots: 7, anchor: u64::MAX, pooled: 7, head: u64::MAX },
        records: lent(tasks + 2, tasks, junk),
        one: junk,
        lefts: lent(slots + 3, slots + 1, u64::MAX),
        rights: lent(slots + 3, slots + 1, u64::MAX),
        labels: lent(slots + 3, slots + 1, u32::MAX),
        marks: lent(slots / 64 + 3, slots / 64 + 1, u64::MAX),
        next: lent(slots + 3, next_rows, u64::MAX),
        slots_out: lent(slots + 2, slots, u64::MAX),
        labels_out: lent(slots + 2, slots, u32::MAX),
    }
}

fn next_call(dice: &mut Dice, world: &World) -> Call {
    let Control { tasks, slots, pooled, .. } = world.control;
    let strange = dice.percent(3);
    let mut task = dice.between(0, tasks - 1) as usize;
    let place = world.records.held[task].place;
    if strange && dice.percent(30) {
        task = dice.pick(&[tasks as usize, usize::MAX]);
    }
    let side = if strange { dice.between(0, 2) } else { dice.between(0, 1) };
    let start = match place == 0 {
        true => !dice.percent(2),
        false => dice.percent(2),
    };
    match start {
        true if dice.percent(55) => {
            let label = common_label(dice);
            let wrong = strange && dice.percent(30);
            if (pooled == POOLED) != wrong {
                return Call::PushPooled { task, side, label };
            }
            let slot = if strange { dice.between(0, slots + 1) } else { dice.between(1, slots) };
            Call::Push { task, side, slot, label }
        }
        true => Call::Pop { task, side },
        false if dice.percent(2) => Call::Report,
        false if dice.percent(2) => any_question(dice),
        false if dice.percent(2) => Call::Waiting,
        false if dice.percent(4) => Call::Run { task, most: dice.between(0, 25) },
        false if dice.percent(50) && task < tasks as usize => Call::StepRow { task },
        false => Call::Step { task },
    }
}

/// The steps with which a task, alone, has its answer.
fn enough_alone(way: u64, kind: u64) -> u64 {
    match (way, kind) {
        (NAMED, PUSH) => PUSH_STEPS,
        (NAMED, _) => POP_STEPS,
        (_, PUSH) => POOLED_PUSH_STEPS,
        _ => POOLED_POP_STEPS,
    }
}

/// A step on the lent record answers, and leaves everything, as its task's step does.
fn same_as_step(before: &World, task: usize, after: &World, told: Told) -> bool {
    let mut other = before.clone();
    let answer = by_library(&mut other, Call::Step { task });
    answer == told && other == *after
}

fn history(tally: &mut Tally, dice: &mut Dice, taken: &mut BTreeSet<Line>, calls: u32) -> bool {
    let tasks = dice.pick(&[1, 2, 3, 5, 16]);
    let slots = dice.pick(&[1, 2, 3, 8, 63, 64, 65]);
    let any = dice.throw() as u32;
    let tag = dice.pick(&[0, 1, 2, any, any, any, 4_294_967_000, 4_294_967_262, u32::MAX]);
    let pooled = dice.percent(50);
    let (opening, next_rows) = match pooled {
        false => (Call::Open { tasks, slots, tag }, dice.between(0, slots + 1)),
        true => (Call::OpenPooled { tasks, slots, tag }, slots + 1),
    };
    let mut ours = unopened(tasks as usize, slots as usize, next_rows as usize);
    let mut theirs = ours.clone();
    let opened = tally.compare(&mut ours, &mut theirs, opening);
    if opened.is_none() {
        return false;
    }
    // Near the last tag starts are soon refused, and nothing more happens.
    let calls = if tag >= 4_294_967_000 { calls / 10 } else { calls };
    for _ in 0..calls {
        let call = next_call(dice, &theirs);
        let before = if let Call::StepRow { .. } = call { Some(ours.clone()) } else { None };
        let record = match call {
            Call::Step { task } | Call::StepRow { task } | Call::Run { task, .. } => {
                theirs.records.held.get(task).copied()
            }
            _ => None,
        };
        let Some(told) = tally.compare(&mut ours, &mut theirs, call) else { return false };
        if told.code() == 34 {
            return false; // never after an opening and engine calls alone
        }
        if let (Call::Run { task, most }, Some(record)) = (call, record) {
            let enough = enough_alone(ours.control.pooled, record.kind);
            let busy = (task as u64) < ours.control.tasks && record.place != 0;
            if busy && most >= enough && !(2..=5).contains(&told.code()) {
                println!("{enough} steps alone were not enough: {told:?}");
                return false;
            }
        }
        if let (Call::StepRow { task }, Some(before)) = (call, before) {
            if !same_as_step(&before, task, &ours, told) {
                println!("a step on the lent record of task {task} differs from the task's step");
                return false;
            }
        }
        if call.export() == Export::Step || call.export() == Export::StepRecord {
            let way = theirs.control.pooled;
            taken.extend(record.and_then(|record| line(way, &record, told)));
        }
    }
    true
}

pub fn histories(tally: &mut Tally, dice: &mut Dice, times: u32, calls: u32) {
    let mut taken = BTreeSet::new();
    let mut holds = true;
    for _ in 0..times {
        holds &= history(tally, dice, &mut taken, calls);
    }
    tally.check(holds, "histories from an opening, without 34");
    for line in route() {
        tally.check(
            taken.contains(&line),
            &format!("this line of the route was not taken: {line:?}"),
        );
    }
    let strange = taken.difference(&route()).next().copied();
    tally.check(strange.is_none(), &format!("this line is not on the route: {strange:?}"));
}

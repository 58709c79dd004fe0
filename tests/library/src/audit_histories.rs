//! Histories of finished calls that pass, damage done to them, and noise.

use reference::audit::{Finished, EMPTY, POPPED, PUSHED};
use reference::dice::Dice;
use reference::machine;
use reference::tables::{Storage, POOLED, POP, PUSH};
use reference::word::Anchor;
use std::collections::VecDeque;

#[derive(Clone, Debug, Default)]
pub struct History {
    pub calls: Vec<Finished>,
    pub order: Vec<u64>,
}

/// What is done to a history that passes.
#[derive(Clone, Copy, Debug, PartialEq, Eq, PartialOrd, Ord)]
pub enum Damage {
    Nothing,
    Rest,
    EmptyLabel,
    Task,
    Kind,
    Side,
    Answer,
    EndAtStart,
    EndBeforeStart,
    SameStarts,
    SameEnds,
    StartAtAnEnd,
    OrderShort,
    OrderLong,
    NumberZero,
    NumberAbove,
    NumberTwice,
    Swapped,
    Moved,
    OtherAnswer,
    OtherLabel,
    OtherKind,
    OtherSide,
    SwappedAndOtherAnswer,
}
use Damage::*;

/// With these a history of at least two calls always gets one verdict.
pub const PASSING: [Damage; 4] = [Nothing, Rest, EmptyLabel, Task];
pub const REFUSED: [Damage; 8] =
    [Kind, Side, Answer, EndAtStart, EndBeforeStart, SameStarts, SameEnds, StartAtAnEnd];
pub const NO_REARRANGEMENT: [Damage; 5] =
    [OrderShort, OrderLong, NumberZero, NumberAbove, NumberTwice];
/// A push as a pop, or the other way, has another answer.
pub const FAILING: [Damage; 1] = [OtherKind];
/// With these it depends.
pub const OPEN: [Damage; 6] =
    [Swapped, Moved, OtherAnswer, OtherLabel, OtherSide, SwappedAndOtherAnswer];

/// Calls of a few tasks at once; at each event one starts, takes effect or answers.
pub fn overlapping(dice: &mut Dice, count: usize) -> History {
    let labels = dice.pick(&[1, 2, 5, u64::MAX]);
    let pops = dice.between(20, 70);
    let most = dice.pick(&[1, 2, 4, 16]);
    let mut event = dice.pick(&[0, 1, 1_000, u64::MAX - 600]);
    let (mut history, mut open) = (History::default(), Vec::new());
    let mut queue = VecDeque::new();
    while history.calls.len() < count || !open.is_empty() {
        event += dice.between(1, 2);
        let room = history.calls.len() < count && open.len() < most;
        if room && (open.is_empty() || dice.percent(40)) {
            let kind = if dice.percent(pops) { POP } else { PUSH };
            let (task, side) = (dice.between(0, 15), dice.between(0, 1));
            let label = dice.throw() % labels;
            open.push(history.calls.len());
            history.calls.push(Finished {
                task,
                kind,
                side,
                label,
                start: event,
                ..Finished::default()
            });
            continue;
        }
        let one = dice.between(0, open.len() as u64 - 1) as usize;
        let call = &mut history.calls[open[one]];
        if call.answer != 0 {
            call.end = event;
            open.swap_remove(one);
            continue;
        }
        history.order.push(open[one] as u64 + 1);
        take_effect(&mut queue, call);
    }
    history
}

fn take_effect(queue: &mut VecDeque<u64>, call: &mut Finished) {
    if call.kind == PUSH {
        call.answer = PUSHED;
        match call.side {
            0 => queue.push_front(call.label),
            _ => queue.push_back(call.label),
        }
        return;
    }
    let label = if call.side == 0 { queue.pop_front() } else { queue.pop_back() };
    call.answer = if label.is_some() { POPPED } else { EMPTY };
    call.label = label.unwrap_or(call.label);
}

/// A run of the second program's queue, all of its calls answered, written as a history. A pooled
/// queue has as many slots as there are calls, so that none is answered *no slot*, which no history
/// holds.
pub fn of_a_run(dice: &mut Dice, count: usize) -> History {
    let tasks = dice.pick(&[1, 2, 3, 8, 16]);
    let mut storage = Storage::default();
    if dice.percent(50) {
        storage.lend().open_pooled(tasks, count.max(1) as u64, 0).expect("opens");
    } else {
        storage.lend().open(tasks, dice.pick(&[1, 2, 8, 64]), 0).expect("opens");
    }
    let (mut history, mut open) = (History::default(), vec![None; tasks as usize]);
    for event in 1.. {
        let done = history.calls.len() == count;
        if done && open.iter().all(Option::is_none) {
            break;
        }
        let task = dice.between(0, tasks - 1);
        let Some(number) = open[task as usize] else {
            if !done {
                open[task as usize] = start(dice, &mut storage, &mut history, task, event);
            }
            continue;
        };
        let before = ends(&storage);
        let moved = storage.lend().step(task).expect("a busy task steps");
        if before != ends(&storage) || moved == machine::Moved::Empty {
            history.order.push(number as u64 + 1);
        }
        let call: &mut Finished = &mut history.calls[number];
        (call.answer, call.label) = match moved {
            machine::Moved::Running(_) => continue,
            machine::Moved::Pushed => (PUSHED, call.label),
            machine::Moved::Empty => (EMPTY, 0),
            machine::Moved::Popped { label, .. } => (POPPED, label.into()),
            machine::Moved::NoSlot => unreachable!("a slot for each call"),
        };
        call.end = event;
        open[task as usize] = None;
    }
    history
}

fn start(
    dice: &mut Dice,
    storage: &mut Storage,
    history: &mut History,
    task: u64,
    event: u64,
) -> Option<usize> {
    let (side, label) = (dice.between(0, 1), dice.between(0, 3) as u32);
    let slot = dice.between(1, storage.control.slots);
    let pooled = storage.control.pooled == POOLED;
    let push = dice.percent(55)
        && match pooled {
            true => storage.lend().push_pooled(task, side, label).is_ok(),
            false => storage.lend().push(task, side, slot, label).is_ok(),
        };
    let label = u64::from(label);
    if !push {
        storage.lend().pop(task, side).expect("an idle task starts a pop");
    }
    let kind = if push { PUSH } else { POP };
    history.calls.push(Finished { task, kind, side, label, start: event, ..Finished::default() });
    Some(history.calls.len() - 1)
}

fn ends(storage: &Storage) -> (u64, u64) {
    let anchor = Anchor::unpack(storage.control.anchor);
    (anchor.left, anchor.right)
}

/// Two different indexes.
fn two(dice: &mut Dice, count: usize) -> (usize, usize) {
    let one = dice.between(0, count as u64 - 1) as usize;
    (one, (one + dice.between(1, count as u64 - 1) as usize) % count)
}

/// Damages a history of two calls or more.
pub fn damage(dice: &mut Dice, history: &mut History, what: Damage) {
    let count = history.calls.len();
    let (one, other) = two(dice, count);
    let twin = history.calls[other];
    let call = &mut history.calls[one];
    match what {
        Nothing | Rest => {}
        EmptyLabel => {
            let wild = dice.throw();
            history
                .calls
                .iter_mut()
                .filter(|call| call.answer == EMPTY)
                .for_each(|call| call.label = wild);
        }
        Task => call.task = dice.throw(),
        Kind => call.kind = dice.pick(&[2, 3, u64::MAX]),
        Side => call.side = dice.pick(&[2, 3, u64::MAX]),
        Answer => call.answer = dice.pick(&[0, 1, 5, 34, u64::MAX]),
        EndAtStart => call.end = call.start,
        EndBeforeStart => (call.start, call.end) = (call.end, call.start),
        SameStarts => call.start = twin.start,
        SameEnds => call.end = twin.end,
        StartAtAnEnd => call.start = twin.end,
        OrderShort => drop(history.order.remove(one)),
        OrderLong => history.order.push(dice.between(0, count as u64 + 1)),
        NumberZero => history.order[one] = 0,
        NumberAbove => {
            history.order[one] = dice.pick(&[count as u64 + 1, 64 + count as u64, u64::MAX])
        }
        NumberTwice => history.order[one] = history.order[other],
        Swapped => history.order.swap(one, other),
        Moved => {
            let number = history.order.remove(one);
            history.order.insert(other, number);
        }
        OtherAnswer => call.answer = dice.between(PUSHED, POPPED),
        OtherLabel => call.label ^= dice.pick(&[1, 1 << 31, 1 << 32, 1 << 63]),
        OtherKind => call.kind = 1 - call.kind,
        OtherSide => call.side = 1 - call.side,
        SwappedAndOtherAnswer => {
            call.answer = dice.between(PUSHED, POPPED);
            history.order.swap(one, other);
        }
    }
}

/// Small numbers anywhere.
pub fn noise(dice: &mut Dice) -> History {
    let count = dice.between(0, 5);
    let call = |dice: &mut Dice| {
        let start = dice.between(0, 40);
        Finished {
            task: dice.between(0, 2),
            kind: dice.between(0, 1),
            side: dice.between(0, 1),
            label: dice.between(0, 1),
            answer: dice.between(2, 4),
            start,
            end: start + dice.between(0, 20),
        }
    };
    let calls = (0..count).map(|_| call(dice)).collect();
    let mut order: Vec<u64> = (1..=count).collect();
    for n in 1..order.len() {
        order.swap(n, dice.between(0, n as u64) as usize);
    }
    History { calls, order }
}

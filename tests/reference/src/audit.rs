//! Document 02, #103: the history of an older controller, judged by a plain queue of labels.

use crate::tables::{POP, PUSH};
use crate::word::Side;
use std::collections::{HashSet, VecDeque};

pub const MOST_CALLS: usize = 64;

/// Answers have the numbers of the C header.
pub const PUSHED: u64 = 2;
pub const EMPTY: u64 = 3;
pub const POPPED: u64 = 4;

/// A finished call, as the controller wrote it down: any numbers.
#[derive(Clone, Copy, Debug, Default, PartialEq, Eq)]
pub struct Finished {
    pub task: u64,
    pub kind: u64,
    pub side: u64,
    pub label: u64,
    pub answer: u64,
    pub start: u64,
    pub end: u64,
}

#[derive(Clone, Copy, Debug, PartialEq, Eq)]
pub enum Verdict {
    Passes,
    /// The first wrong position, from 1; 0 where the order is no rearrangement.
    Fails(u64),
    /// 40: no history that can be judged.
    Refused,
}

/// `order` is the claimed order of effects: numbers of calls, from 1.
pub fn audit(calls: &[Finished], order: &[u64]) -> Verdict {
    if !is_history(calls) {
        return Verdict::Refused;
    }
    let Some(claimed) = rearranged(calls, order) else { return Verdict::Fails(0) };
    let answers = served(&claimed);
    let wrong = |at: &usize| answers[*at] != recorded(&claimed[*at]) || is_early(&claimed, *at);
    match (0..claimed.len()).find(wrong) {
        None => Verdict::Passes,
        Some(at) => Verdict::Fails(at as u64 + 1),
    }
}

fn is_history(calls: &[Finished]) -> bool {
    let known = |call: &Finished| {
        [PUSH, POP].contains(&call.kind)
            && [0, 1].contains(&call.side)
            && [PUSHED, EMPTY, POPPED].contains(&call.answer)
            && call.start < call.end
    };
    let mut events = HashSet::new();
    calls.len() <= MOST_CALLS
        && calls.iter().all(known)
        && calls.iter().flat_map(|call| [call.start, call.end]).all(|event| events.insert(event))
}

/// The calls in the claimed order, if that names each of them once.
fn rearranged(calls: &[Finished], order: &[u64]) -> Option<Vec<Finished>> {
    let mut numbers = order.to_vec();
    numbers.sort_unstable();
    if !numbers.into_iter().eq(1..=calls.len() as u64) {
        return None;
    }
    Some(order.iter().map(|number| calls[*number as usize - 1]).collect())
}

/// An answer with the label that belongs to it.
fn recorded(call: &Finished) -> (u64, Option<u64>) {
    (call.answer, (call.answer == POPPED).then_some(call.label))
}

/// What a plain queue, empty at first, answers to the calls in this order.
fn served(calls: &[Finished]) -> Vec<(u64, Option<u64>)> {
    let mut queue = VecDeque::new();
    let mut serve = |call: &Finished| match (call.kind, Side::numbered(call.side)) {
        (PUSH, side) => {
            match side {
                Side::Left => queue.push_front(call.label),
                Side::Right => queue.push_back(call.label),
            }
            (PUSHED, None)
        }
        (_, Side::Left) => taken(queue.pop_front()),
        (_, Side::Right) => taken(queue.pop_back()),
    };
    calls.iter().map(&mut serve).collect()
}

fn taken(label: Option<u64>) -> (u64, Option<u64>) {
    (if label.is_some() { POPPED } else { EMPTY }, label)
}

/// Whether the call at this position stands before one that was answered before it started.
fn is_early(claimed: &[Finished], at: usize) -> bool {
    claimed[at + 1..].iter().any(|later| later.end < claimed[at].start)
}

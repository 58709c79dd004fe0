//! Looks for an order of a history's calls that passes: Wing and Gong's search. A call may come next if
//! no call that is left was answered before it started and the plain queue gives it its answer; what was
//! tried without success, the calls left with the labels waiting, is not tried again.

use super::plain::{serve, Labels};
use std::collections::HashSet;
use zeppolecape::Finished;

pub enum Search {
    Found(Vec<u64>),
    None,
    /// After so many states.
    GaveUp(usize),
}

/// States that are remembered at the most: some hundred megabytes, and a few seconds.
const MOST_STATES: usize = 500_000;

/// An order that passes. At most 64 calls, each well formed.
pub fn order(calls: &[Finished]) -> Search {
    let mut tries = Tries { calls, vain: HashSet::new(), order: Vec::new() };
    match tries.go_on(0, &Labels::new()) {
        Some(true) => Search::Found(tries.order),
        Some(false) => Search::None,
        None => Search::GaveUp(tries.vain.len()),
    }
}

struct Tries<'a> {
    calls: &'a [Finished],
    vain: HashSet<(u64, Labels)>,
    order: Vec<u64>,
}

impl Tries<'_> {
    /// Whether the calls left can follow, `done` being a bit a call; nothing where it gave up.
    fn go_on(&mut self, done: u64, queue: &Labels) -> Option<bool> {
        let left = |at: &usize| done >> at & 1 == 0;
        let all = 0..self.calls.len();
        let Some(first_answer) = all.clone().filter(left).map(|at| self.calls[at].end).min() else {
            return Some(true);
        };
        if self.vain.contains(&(done, queue.clone())) {
            return Some(false);
        }
        for at in all.filter(left) {
            if self.calls[at].start > first_answer {
                continue;
            }
            let mut after = queue.clone();
            if !serve(&mut after, &self.calls[at]).was_told(&self.calls[at]) {
                continue;
            }
            self.order.push(at as u64 + 1);
            if self.go_on(done | 1 << at, &after)? {
                return Some(true);
            }
            self.order.pop();
        }
        if self.vain.len() == MOST_STATES {
            return None;
        }
        self.vain.insert((done, queue.clone()));
        Some(false)
    }
}

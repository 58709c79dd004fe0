//! Every label accounted for (document 02, #114): pushed = popped + on the way out + waiting, for each
//! label, copies counted. The sums come from the effects and the answers, not from marks or counters.

use super::{Asked, Reply, Touch};
use crate::queue::{Entry, Machine};
use std::collections::BTreeMap;
use zeppolecape::{Anchor, Answer, Record};

/// What came of the calls of a run so far.
#[derive(Clone, Debug, Default, PartialEq, Eq)]
pub struct Accounts {
    /// Pushes and pops that took effect, *empty* and *no slot* left out.
    pub pushed: u64,
    pub taken: u64,
    /// Pops answered with a label.
    pub popped: u64,
    pub empty: u64,
    pub no_slot: u64,
    pub refused: u64,
    /// Of each label, how often it was pushed less how often it was popped; no zeros.
    balance: BTreeMap<u32, i64>,
}

/// A label that does not add up: so many copies more (or, below 0, fewer) were pushed than were popped,
/// are on the way out and wait.
#[derive(Clone, Copy, Debug, PartialEq, Eq)]
pub struct Missing {
    pub label: u32,
    pub copies: i64,
}

impl Accounts {
    pub(super) fn follow(&mut self, touch: &Touch) {
        match touch.reply {
            Reply::Refused(_) => self.refused += 1,
            Reply::Moved(Answer::Empty) => self.empty += 1,
            Reply::Moved(Answer::NoFreeSlot) => self.no_slot += 1,
            Reply::Moved(answer) => self.moved(touch, answer),
            _ => {}
        }
    }

    fn moved(&mut self, touch: &Touch, answer: Answer) {
        if let Some(call) = touch.call.filter(|call| call.effect == Some(touch.event)) {
            match call.asked {
                Asked::Push { label, .. } => {
                    self.pushed += 1;
                    self.add(label, 1);
                }
                _ => self.taken += 1,
            }
        }
        if let Answer::Popped { label, .. } = answer {
            self.popped += 1;
            self.add(label, -1);
        }
    }

    fn add(&mut self, label: u32, copies: i64) {
        let count = self.balance.entry(label).or_default();
        *count += copies;
        if *count == 0 {
            self.balance.remove(&label);
        }
    }

    /// The labels that do not add up; none where all are accounted for.
    pub fn missing(&self, on_the_way: &[u32], waiting: &[Entry]) -> Vec<Missing> {
        let mut rest = self.clone();
        let waiting = waiting.iter().map(|&(_, label)| label);
        on_the_way.iter().copied().chain(waiting).for_each(|label| rest.add(label, -1));
        rest.balance.into_iter().map(|(label, copies)| Missing { label, copies }).collect()
    }
}

/// The labels of the pops that took effect and are not answered yet.
pub fn on_the_way(queue: &impl Machine) -> Vec<u32> {
    let records = (0..queue.control().tasks as u8).filter_map(|task| queue.record(task));
    records.filter_map(|record| taken_label(queue, &record)).collect()
}

fn taken_label(queue: &impl Machine, record: &Record) -> Option<u32> {
    if record.kind != zeppolecape::raw::POP {
        return None;
    }
    let seen = Anchor::of(record.seen);
    match record.place {
        11 if record.side == 0 => Some(queue.label(seen.left)),
        11 => Some(queue.label(seen.right)),
        15..=17 => Some(record.label),
        _ => None,
    }
}

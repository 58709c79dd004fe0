//! Wrong queues: the faults that pass a spreadsheet (document 01), one at a time. Each is the right step
//! with what the fault changes in it done afterwards; nothing of the product, and no part of any test that
//! judges it.

use crate::machine::{Answer, Moved};
use crate::tables::{Record, Tables, POP, PUSH};
use crate::word::{Anchor, Link, Side};

/// The faults, in the document's order.
#[derive(Clone, Copy, Debug, PartialEq, Eq)]
pub enum Fault {
    /// "Dropping place 8, since place 6 looked already."
    NoPlace8,
    /// "Resetting a link's tag when a slot is pushed again."
    TagReset,
    /// "Clearing a mark at the pop's Anchor change, before its label is read."
    MarkClearedEarly,
    /// "Testing the status before l = r in a pop."
    StatusFirst,
    /// "A failed place 9 taken as a failed push, which then pushes twice."
    PushedTwice,
}

impl Tables<'_> {
    /// Moves one task by one step of the wrong queue.
    pub fn step_wrong(&mut self, task: u64, fault: Fault) -> Answer {
        let before = self.records.get(task as usize).copied().unwrap_or_default();
        let was_marked = self.is_marked(taken_end(&before));
        let answer = self.step(task)?;
        match fault {
            Fault::NoPlace8 if answer == Moved::Running(8) => self.go(task, 9),
            Fault::StatusFirst if before.kind == POP && answer == Moved::Running(2) => {
                self.go(task, 3)
            }
            Fault::TagReset if before.place == 3 && before.kind == PUSH => {
                self.reset_own_link(&before);
                Ok(answer)
            }
            Fault::MarkClearedEarly if before.kind == POP => {
                self.clear_early(&before, answer, was_marked);
                Ok(answer)
            }
            Fault::PushedTwice if before.place == 9 && answer == Moved::Pushed => {
                let retries = self.records[task as usize].retries;
                self.records[task as usize] = Record { finishing: 0, retries, ..before };
                self.go(task, 1)
            }
            _ => Ok(answer),
        }
    }

    fn go(&mut self, task: u64, place: u64) -> Answer {
        self.records[task as usize].place = place;
        Ok(Moved::Running(place))
    }

    fn is_marked(&self, slot: u64) -> bool {
        slot <= self.shared.control.slots && self.shared.is_marked(slot)
    }

    /// The link that a push at 3 has just written, its tag not kept.
    fn reset_own_link(&mut self, push: &Record) {
        let side = Side::numbered(push.side).opposite();
        let word = &mut self.shared.links_mut(side)[push.own as usize];
        *word = Link::new(0, Link(*word).slot()).0;
    }

    /// A pop's change at 2 or 4 clears the mark; at 11 it stays as it was.
    fn clear_early(&mut self, pop: &Record, answer: Moved, was_marked: bool) {
        let slot = taken_end(pop);
        if matches!(pop.place, 2 | 4) && answer == Moved::Running(11) {
            self.shared.clear_mark(slot);
        }
        if pop.place == 11 && was_marked {
            self.shared.set_mark(slot);
        }
    }
}

/// The end that a pop takes: its side's, as it read Anchor.
fn taken_end(record: &Record) -> u64 {
    Anchor::unpack(record.seen).end(Side::numbered(record.side))
}

//! The plain queue of labels that a history is held against.

use std::collections::VecDeque;
use zeppolecape::Finished;

pub type Labels = VecDeque<u64>;

/// What the plain queue gives a call.
#[derive(Clone, Copy, Debug, PartialEq, Eq)]
pub enum Given {
    Pushed,
    Empty,
    Popped(u64),
}

/// Serves a call, whatever it was told.
pub fn serve(queue: &mut Labels, call: &Finished) -> Given {
    match (call.kind, call.side) {
        (0, side) => {
            match side {
                0 => queue.push_front(call.label),
                _ => queue.push_back(call.label),
            }
            Given::Pushed
        }
        (_, 0) => queue.pop_front().map_or(Given::Empty, Given::Popped),
        _ => queue.pop_back().map_or(Given::Empty, Given::Popped),
    }
}

impl Given {
    /// Whether this is what the call was told.
    pub fn was_told(self, call: &Finished) -> bool {
        match self {
            Given::Pushed => call.answer == 2,
            Given::Empty => call.answer == 3,
            Given::Popped(label) => call.answer == 4 && call.label == label,
        }
    }
}

//! Where labels wait.

use crate::tables::{look, Shared};
use crate::{Queue, Refusal, Tables};
use alloc::vec::Vec;

/// Where the labels asked for wait.
#[derive(Clone, Debug, PartialEq, Eq)]
pub struct Found {
    /// Labels in the queue.
    pub rows: u64,
    /// Of each label asked for, from 1 at the left; of equal ones in the queue the leftmost's.
    pub positions: Vec<Option<u64>>,
}

fn find(tables: Shared<'_>, asked: &[u32]) -> Result<Found, Refusal> {
    let reply = look!(tables.zc_find(asked.as_ptr(), asked.len()));
    match reply.code {
        0 => {
            let positions = &reply.positions[..asked.len()];
            let positions = positions.iter().map(|&at| (at != 0).then_some(at)).collect();
            Ok(Found { rows: reply.rows, positions })
        }
        number => Err(Refusal::answered(number)),
    }
}

impl Tables<'_> {
    /// Finds up to 32 labels. Refuses 34 for control, 45, 12 (no records), 34 for the walk.
    pub fn find(&self, asked: &[u32]) -> Result<Found, Refusal> {
        find(self.shared(), asked)
    }
}

impl Queue {
    /// Where up to 32 labels wait; more are refused [`Refusal::ManyAsked`].
    pub fn find(&self, asked: &[u32]) -> Result<Found, Refusal> {
        find(self.shared(), asked)
    }
}

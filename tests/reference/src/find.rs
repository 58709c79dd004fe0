//! Where labels wait: document 02, #110.

use crate::contents;
use crate::refusal::{self, demand, Refusal};
use crate::tables::Shared;

pub const MOST_ASKED: usize = 32;

#[derive(Clone, Debug, PartialEq, Eq)]
pub struct Found {
    /// The rows that the walk read.
    pub rows: u64,
    /// Of each label asked for, from 1 at the left, or nothing if it doesn't wait.
    pub positions: Vec<Option<u64>>,
}

impl Shared<'_> {
    /// 34 for control and Anchor, 45, 12 without the records, and 34 for the walk.
    pub fn find(&self, asked: &[u32]) -> Result<Found, Refusal> {
        refusal::control_sound(self.control)?;
        demand(asked.len() <= MOST_ASKED, Refusal::ManyAsked)?;
        refusal::shared_long_enough(self, self.control.slots, false)?;
        let entries = contents::waiting(self).ok_or(Refusal::Unsound)?;
        let leftmost = |label: &u32| entries.iter().position(|entry| entry.label == *label);
        let positions = asked.iter().map(|label| leftmost(label).map(|at| at as u64 + 1)).collect();
        Ok(Found { rows: entries.len() as u64, positions })
    }
}

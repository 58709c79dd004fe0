//! The labels waiting written into two tables: document 01, "Places", last paragraph.

use crate::contents;
use crate::refusal::{self, demand, Refusal};
use crate::tables::Shared;

impl Shared<'_> {
    /// 34 for control and Anchor, 12 without the records, 34 for the walk, and 12 for a table that is
    /// too short for what waits. Answers how many wait.
    pub fn read_out(&self, slots: &mut [u64], labels: &mut [u32]) -> Result<u64, Refusal> {
        refusal::control_sound(self.control)?;
        refusal::shared_long_enough(self, self.control.slots, false)?;
        let entries = contents::waiting(self).ok_or(Refusal::Unsound)?;
        demand(entries.len() <= slots.len().min(labels.len()), Refusal::Short)?;
        for (at, entry) in entries.iter().enumerate() {
            (slots[at], labels[at]) = (entry.slot, entry.label);
        }
        Ok(entries.len() as u64)
    }
}

//! The labels waiting, in order.

use crate::tables::{look, Shared};
use crate::{Queue, Refusal, Tables};
use alloc::vec;
use alloc::vec::Vec;

fn waiting(tables: Shared<'_>, slots: &mut [u64], labels: &mut [u32]) -> Result<usize, Refusal> {
    let (places, copies) = (slots.as_mut_ptr(), labels.as_mut_ptr());
    let reply = look!(tables.zc_waiting(places, slots.len(), copies, labels.len()));
    match reply.code {
        0 => Ok(reply.count as usize),
        number => Err(Refusal::answered(number)),
    }
}

impl Tables<'_> {
    /// Writes the slots and labels that wait, from left to right, into two tables, and answers how
    /// many there are. Refuses 34 for control, 12 (no records), 34 for the walk, 12 for a table that
    /// is too short for them.
    pub fn waiting(&self, slots: &mut [u64], labels: &mut [u32]) -> Result<usize, Refusal> {
        waiting(self.shared(), slots, labels)
    }
}

impl Queue {
    /// The slots and labels that wait, from left to right.
    pub fn waiting(&self) -> Vec<(u64, u32)> {
        let most = self.lefts.len();
        let (mut slots, mut labels) = (vec![0; most], vec![0; most]);
        let count =
            waiting(self.shared(), &mut slots, &mut labels).expect("an open queue is sound");
        slots.into_iter().zip(labels).take(count).collect()
    }
}

//! A queue that can be looked at: its calls, and every word that it was lent. [`Library`] is the
//! product, behind its exported calls alone.

use zeppolecape::{mark_words, rows, Anchor, Answer, Control, Record, Refusal, Tables};
use zeppolecape::{MOST_SLOTS, MOST_TASKS};

/// A slot and the label in it.
pub type Entry = (u64, u32);

/// An end of the queue, and a direction of links.
pub use zeppolecape::Side;

/// How a queue is opened.
#[derive(Clone, Copy, Debug, PartialEq, Eq)]
pub struct Opening {
    pub pooled: bool,
    pub tasks: u8,
    pub slots: u16,
    pub first_tag: u32,
}

/// What the tools ask of a queue. Numbers are taken as they come: what is wrong is refused.
pub trait Machine {
    fn open(&mut self, opening: Opening) -> Result<(), Refusal>;
    /// Without a slot where the push leaves it to the pool.
    fn push(&mut self, task: u8, side: u8, slot: Option<u16>, label: u32) -> Result<(), Refusal>;
    fn pop(&mut self, task: u8, side: u8) -> Result<(), Refusal>;
    fn step(&mut self, task: u8) -> Result<Answer, Refusal>;

    fn control(&self) -> Control;
    /// The record of a task that was opened.
    fn record(&self, task: u8) -> Option<Record>;
    /// A slot's link word.
    fn link(&self, side: Side, slot: u64) -> u64;
    fn label(&self, slot: u64) -> u32;
    fn is_taken(&self, slot: u64) -> bool;
    /// In a pooled queue, the slot below this one.
    fn next(&self, slot: u64) -> u64;
    /// The labels waiting and their slots, from left to right.
    fn waiting(&mut self) -> Result<Vec<Entry>, Refusal>;

    fn anchor(&self) -> Anchor {
        Anchor::of(self.control().anchor)
    }

    /// The free slots of a pooled queue, from the top; no more than there are slots.
    fn free_stack(&self) -> Vec<u64> {
        let control = self.control();
        let mut slot = zeppolecape::link_slot(control.head);
        let mut found = Vec::new();
        while control.pooled == 1 && slot != 0 && (found.len() as u64) < control.slots {
            found.push(slot);
            slot = self.next(slot);
        }
        found
    }
}

/// The library's queue, in tables of the greatest length.
#[derive(Clone, Debug)]
pub struct Library {
    control: Control,
    records: Vec<Record>,
    lefts: Vec<u64>,
    rights: Vec<u64>,
    labels: Vec<u32>,
    marks: Vec<u64>,
    next: Vec<u64>,
}

impl Default for Library {
    fn default() -> Library {
        Library {
            control: Control::default(),
            records: vec![Record::default(); MOST_TASKS as usize],
            lefts: vec![0; rows(MOST_SLOTS)],
            rights: vec![0; rows(MOST_SLOTS)],
            labels: vec![0; rows(MOST_SLOTS)],
            marks: vec![0; mark_words(MOST_SLOTS)],
            next: vec![0; rows(MOST_SLOTS)],
        }
    }
}

impl Library {
    /// The tables, for a call of the library.
    pub fn lend(&mut self) -> Tables<'_> {
        Tables {
            control: &mut self.control,
            records: &mut self.records,
            lefts: &mut self.lefts,
            rights: &mut self.rights,
            labels: &mut self.labels,
            marks: &mut self.marks,
            next: &mut self.next,
        }
    }
}

impl Machine for Library {
    fn open(&mut self, opening: Opening) -> Result<(), Refusal> {
        let Opening { pooled, tasks, slots, first_tag } = opening;
        match pooled {
            false => self.lend().open(tasks.into(), slots.into(), first_tag),
            true => self.lend().open_pooled(tasks.into(), slots.into(), first_tag),
        }
    }

    fn push(&mut self, task: u8, side: u8, slot: Option<u16>, label: u32) -> Result<(), Refusal> {
        match slot {
            Some(slot) => self.lend().push(task.into(), side.into(), slot.into(), label),
            None => self.lend().push_pooled(task.into(), side.into(), label),
        }
        .map(drop)
    }

    fn pop(&mut self, task: u8, side: u8) -> Result<(), Refusal> {
        self.lend().pop(task.into(), side.into()).map(drop)
    }

    fn step(&mut self, task: u8) -> Result<Answer, Refusal> {
        self.lend().step(task.into())
    }

    fn control(&self) -> Control {
        self.control
    }

    fn record(&self, task: u8) -> Option<Record> {
        self.records[..self.control.tasks as usize].get(usize::from(task)).copied()
    }

    fn link(&self, side: Side, slot: u64) -> u64 {
        match side {
            Side::Left => self.lefts[slot as usize],
            Side::Right => self.rights[slot as usize],
        }
    }

    fn label(&self, slot: u64) -> u32 {
        self.labels[slot as usize]
    }

    fn is_taken(&self, slot: u64) -> bool {
        self.marks[slot as usize / 64] >> (slot % 64) & 1 == 1
    }

    fn next(&self, slot: u64) -> u64 {
        self.next[slot as usize]
    }

    fn waiting(&mut self) -> Result<Vec<Entry>, Refusal> {
        let most = self.control.slots as usize;
        let (mut slots, mut labels) = (vec![0; most], vec![0; most]);
        let count = self.lend().waiting(&mut slots, &mut labels)?;
        Ok(slots.into_iter().zip(labels).take(count).collect())
    }
}

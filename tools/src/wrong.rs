//! A wrong queue to be looked at beside the right one: the second program with one of the faults that
//! pass a spreadsheet (document 01). It is not the product and shares nothing with it.

use crate::queue::{Entry, Machine, Opening, Side};
use reference::machine::Moved;
use reference::tables::{Storage, MOST_SLOTS, MOST_TASKS};
use reference::wrong::Fault;
use reference::{contents, refusal};
use zeppolecape::{Answer, Control, Record, Refusal};

/// What each fault is called on a command line, and what it leaves out or does wrong.
const FAULTS: [(&str, Fault, &str); 5] = [
    ("8", Fault::NoPlace8, "place 8 is dropped, since place 6 looked already"),
    ("tags", Fault::TagReset, "a link's tag is reset when its slot is pushed again"),
    ("marks", Fault::MarkClearedEarly, "a pop clears the mark at its Anchor change"),
    ("ends", Fault::StatusFirst, "a pop tests the status before it asks whether l = r"),
    ("once", Fault::PushedTwice, "a failed place 9 is taken for a failed push"),
];

/// A fault by its name: with it, what is wrong.
pub fn fault(name: &str) -> Option<(Fault, &'static str)> {
    let found = FAULTS.iter().find(|(known, ..)| *known == name)?;
    Some((found.1, found.2))
}

/// The names of the faults.
pub fn names() -> String {
    FAULTS.map(|(name, ..)| name).join(", ")
}

pub struct Wrong {
    tables: Storage,
    fault: Fault,
}

impl Wrong {
    pub fn with(fault: Fault) -> Wrong {
        Wrong { tables: Storage::fitting(MOST_TASKS, MOST_SLOTS), fault }
    }
}

fn numbered(refusal: refusal::Refusal) -> Refusal {
    Refusal::numbered(refusal.number().into()).expect("both number the refusals alike")
}

impl Machine for Wrong {
    fn open(&mut self, opening: Opening) -> Result<(), Refusal> {
        let Opening { pooled, tasks, slots, first_tag } = opening;
        let mut tables = self.tables.lend();
        match pooled {
            false => tables.open(tasks.into(), slots.into(), first_tag),
            true => tables.open_pooled(tasks.into(), slots.into(), first_tag),
        }
        .map_err(numbered)
    }

    fn push(&mut self, task: u8, side: u8, slot: Option<u16>, label: u32) -> Result<(), Refusal> {
        let mut tables = self.tables.lend();
        match slot {
            Some(slot) => tables.push(task.into(), side.into(), slot.into(), label),
            None => tables.push_pooled(task.into(), side.into(), label),
        }
        .map_err(numbered)
    }

    fn pop(&mut self, task: u8, side: u8) -> Result<(), Refusal> {
        self.tables.lend().pop(task.into(), side.into()).map_err(numbered)
    }

    fn step(&mut self, task: u8) -> Result<Answer, Refusal> {
        let moved = self.tables.lend().step_wrong(task.into(), self.fault).map_err(numbered)?;
        Ok(match moved {
            Moved::Running(place) => Answer::Running(place),
            Moved::Pushed => Answer::Pushed,
            Moved::Empty => Answer::Empty,
            Moved::Popped { slot, label } => Answer::Popped { slot, label },
            Moved::NoSlot => Answer::NoFreeSlot,
        })
    }

    fn control(&self) -> Control {
        let reference::tables::Control { tasks, slots, anchor, pooled, head } = self.tables.control;
        Control { tasks, slots, anchor, pooled, head }
    }

    fn record(&self, task: u8) -> Option<Record> {
        let records = &self.tables.records[..self.tables.control.tasks as usize];
        let one = records.get(usize::from(task))?;
        Some(Record {
            place: one.place,
            kind: one.kind,
            side: one.side,
            own: one.own,
            label: one.label,
            seen: one.seen,
            neighbour: one.neighbour,
            link: one.link,
            finishing: one.finishing,
            retries: one.retries,
        })
    }

    fn link(&self, side: Side, slot: u64) -> u64 {
        match side {
            Side::Left => self.tables.lefts[slot as usize],
            Side::Right => self.tables.rights[slot as usize],
        }
    }

    fn label(&self, slot: u64) -> u32 {
        self.tables.labels[slot as usize]
    }

    fn is_taken(&self, slot: u64) -> bool {
        self.tables.marks[slot as usize / 64] >> (slot % 64) & 1 == 1
    }

    fn next(&self, slot: u64) -> u64 {
        self.tables.next[slot as usize]
    }

    fn waiting(&mut self) -> Result<Vec<Entry>, Refusal> {
        let entries = contents::waiting(&self.tables.lend().shared).ok_or(Refusal::Unsound)?;
        Ok(entries.iter().map(|entry| (entry.slot, entry.label)).collect())
    }
}

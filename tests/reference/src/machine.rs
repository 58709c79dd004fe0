//! The outside calls: opening, push start, pop start, step, report.
//!
//! Every call makes its tests first, in the paper's order, and writes afterwards:
//! a refused call leaves every table as it was.

use crate::contents;
use crate::places::advance;
use crate::refusal::{self, demand, Refusal, LAST_START_TAG};
use crate::tables::{
    Control, Record, Shared, Storage, Tables, MOST_SLOTS, MOST_TASKS, NAMED, POOLED, POP, PUSH,
};
use crate::word::{Anchor, Link};

/// What an accepted step answers.
#[derive(Clone, Copy, Debug, PartialEq, Eq, Hash)]
pub enum Moved {
    Running(u64),
    Pushed,
    Empty,
    Popped {
        slot: u64,
        label: u32,
    },
    /// A pooled push found every slot in use.
    NoSlot,
}

pub type Answer = Result<Moved, Refusal>;

#[derive(Clone, Copy, Debug, PartialEq, Eq)]
pub struct Report {
    pub tag: u64,
    pub status: u64,
    pub left: u64,
    pub right: u64,
    pub busy: u64,
    pub waiting: u64,
    pub taken: u64,
    /// In task order; 0 beyond the tasks.
    pub retries: [u64; MOST_TASKS as usize],
}

impl Tables<'_> {
    /// Opens an empty, STABLE queue. Entries beyond the wanted lengths keep their values.
    pub fn open(&mut self, tasks: u64, slots: u64, first_tag: u32) -> Result<(), Refusal> {
        self.admit_opening(tasks, slots, false)?;
        self.lay_out(tasks, slots, first_tag);
        Ok(())
    }

    /// The same with all slots on a stack, slot 1 on top.
    pub fn open_pooled(&mut self, tasks: u64, slots: u64, first_tag: u32) -> Result<(), Refusal> {
        self.admit_opening(tasks, slots, true)?;
        self.lay_out(tasks, slots, first_tag);
        self.shared.next[0] = 0;
        for slot in 1..=slots {
            self.shared.next[slot as usize] = if slot == slots { 0 } else { slot + 1 };
        }
        self.shared.control.pooled = POOLED;
        self.shared.control.head = Link::new(0, 1).0;
        Ok(())
    }

    fn admit_opening(&self, tasks: u64, slots: u64, pooled: bool) -> Result<(), Refusal> {
        demand((1..=MOST_TASKS).contains(&tasks), Refusal::Tasks)?;
        demand((1..=MOST_SLOTS).contains(&slots), Refusal::Slots)?;
        refusal::long_enough(self, tasks, slots, pooled)
    }

    /// What both ways of opening write.
    fn lay_out(&mut self, tasks: u64, slots: u64, first_tag: u32) {
        let last = slots as usize;
        self.shared.lefts[..=last].fill(0);
        self.shared.rights[..=last].fill(0);
        self.shared.labels[..=last].fill(0);
        self.shared.marks[..=last / 64].fill(0);
        self.records[..tasks as usize].fill(Record::default());
        let anchor = u64::from(first_tag) << 32;
        *self.shared.control = Control { tasks, slots, anchor, pooled: NAMED, head: 0 };
    }

    pub fn push(&mut self, task: u64, side: u64, slot: u64, label: u32) -> Result<(), Refusal> {
        self.admit(task)?;
        demand(side <= 1, Refusal::NoSide)?;
        demand(!self.shared.is_pooled(), Refusal::WrongPush)?;
        demand((1..=self.shared.control.slots).contains(&slot), Refusal::NoSlot)?;
        self.admit_start(task)?;
        demand(!self.shared.is_marked(slot), Refusal::Taken)?;
        self.tag_unworn()?;
        let record = &mut self.records[task as usize];
        *record = Record { place: 1, kind: PUSH, side, own: slot, label, ..record.cleared() };
        self.shared.labels[slot as usize] = label;
        self.shared.set_mark(slot);
        Ok(())
    }

    /// A push that names no slot; place 12 comes first.
    pub fn push_pooled(&mut self, task: u64, side: u64, label: u32) -> Result<(), Refusal> {
        self.admit(task)?;
        demand(side <= 1, Refusal::NoSide)?;
        demand(self.shared.is_pooled(), Refusal::WrongPush)?;
        self.admit_start(task)?;
        self.tag_unworn()?;
        let record = &mut self.records[task as usize];
        *record = Record { place: 12, kind: PUSH, side, label, ..record.cleared() };
        Ok(())
    }

    pub fn pop(&mut self, task: u64, side: u64) -> Result<(), Refusal> {
        self.admit(task)?;
        demand(side <= 1, Refusal::NoSide)?;
        self.admit_start(task)?;
        self.tag_unworn()?;
        let record = &mut self.records[task as usize];
        *record = Record { place: 1, kind: POP, side, ..record.cleared() };
        Ok(())
    }

    /// Moves one task by one step.
    #[inline]
    pub fn step(&mut self, task: u64) -> Answer {
        self.admit(task)?;
        step_admitted(&mut self.shared, &mut self.records[task as usize])
    }

    /// Steps one task until a step does not answer running, `most` times at the most: its answer,
    /// and the steps made. What the first step would be refused by refuses the run; a later step that
    /// would be refused is not made. Without an answer the task is running at its place.
    pub fn run(&mut self, task: u64, most: u64) -> (Answer, u64) {
        if most == 0 {
            return (self.tried(task).map(|_| self.at_rest(task)), 0);
        }
        let mut made = 0;
        while made < most {
            match self.step(task) {
                Ok(Moved::Running(_)) => made += 1,
                Ok(answer) => return (Ok(answer), made + 1),
                Err(refusal) if made == 0 => return (Err(refusal), 0),
                Err(_) => break,
            }
        }
        (Ok(self.at_rest(task)), made)
    }

    fn at_rest(&self, task: u64) -> Moved {
        Moved::Running(self.records[task as usize].place)
    }

    /// What a step would answer, found out on a copy.
    fn tried(&self, task: u64) -> Answer {
        let shared = &self.shared;
        let mut copy = Storage {
            control: shared.control.clone(),
            lefts: shared.lefts.to_vec(),
            rights: shared.rights.to_vec(),
            labels: shared.labels.to_vec(),
            marks: shared.marks.to_vec(),
            next: shared.next.to_vec(),
            records: self.records.to_vec(),
        };
        copy.lend().step(task)
    }

    /// 34 for control and Anchor, 12, and 34 for the walk.
    pub fn report(&self) -> Result<Report, Refusal> {
        self.admit_queue()?;
        let control = &*self.shared.control;
        let Anchor { tag, status, left, right } = Anchor::unpack(control.anchor);
        let records = &self.records[..control.tasks as usize];
        let busy = records.iter().filter(|record| record.place != 0).count() as u64;
        let waiting = contents::waiting(&self.shared).ok_or(Refusal::Unsound)?.len() as u64;
        let taken = (1..=control.slots).filter(|&slot| self.shared.is_marked(slot)).count() as u64;
        let mut retries = [0; MOST_TASKS as usize];
        for (count, record) in retries.iter_mut().zip(records) {
            *count = record.retries;
        }
        Ok(Report { tag, status, left, right, busy, waiting, taken, retries })
    }

    /// What every call on an open queue asks first: 34 for control and Anchor, 12.
    #[inline]
    fn admit_queue(&self) -> Result<(), Refusal> {
        let control = &*self.shared.control;
        refusal::control_sound(control)?;
        refusal::long_enough(self, control.tasks, control.slots, self.shared.is_pooled())
    }

    /// The same for a call on a task, and 13.
    #[inline]
    fn admit(&self, task: u64) -> Result<(), Refusal> {
        self.admit_queue()?;
        demand(task < self.shared.control.tasks, Refusal::NoTask)
    }

    /// 34 for the record, then 30.
    fn admit_start(&self, task: u64) -> Result<(), Refusal> {
        let record = &self.records[task as usize];
        refusal::record_sound(record, self.shared.control)?;
        demand(record.place == 0, Refusal::Busy)
    }

    /// 33.
    fn tag_unworn(&self) -> Result<(), Refusal> {
        let tag = Anchor::unpack(self.shared.control.anchor).tag;
        demand(tag <= LAST_START_TAG, Refusal::WornTag)
    }
}

impl Shared<'_> {
    /// Moves one lent record by one step: no 13, and 12 looks at no records.
    pub fn step_lent(&mut self, record: &mut Record) -> Answer {
        refusal::control_sound(self.control)?;
        refusal::shared_long_enough(self, self.control.slots, self.is_pooled())?;
        step_admitted(self, record)
    }
}

/// 34 for the record, 31, then the place, which tests what it touches.
#[inline]
fn step_admitted(shared: &mut Shared, record: &mut Record) -> Answer {
    refusal::record_sound(record, shared.control)?;
    demand(record.place != 0, Refusal::Idle)?;
    advance(shared, record)
}

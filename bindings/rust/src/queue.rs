//! The queue that owns its tables.

use crate::tables::{report, Shared, Tables};
use crate::{mark_words, rows, Answer, Control, Record, Refusal, Report, Run, Side};
use crate::{LAST_START_TAG, MOST_SLOTS, MOST_TASKS, POOLED_PUSH_STEPS};
use alloc::vec;
use alloc::vec::Vec;

/// A queue that owns its tables. They are only written by the library's calls, so that
/// [`Refusal::Unsound`] and [`Refusal::NoSide`] cannot occur after `open`, nor can [`Refusal::Short`], but
/// for what is lent beside the queue: shelves ([`Queue::save`], [`Queue::return_to`]) and the words of
/// [`Queue::sheet_words`].
#[derive(Clone, Debug)]
pub struct Queue {
    pub(crate) control: Control,
    pub(crate) records: Vec<Record>,
    pub(crate) lefts: Vec<u64>,
    pub(crate) rights: Vec<u64>,
    pub(crate) labels: Vec<u32>,
    pub(crate) marks: Vec<u64>,
    pub(crate) next: Vec<u64>,
}

impl Queue {
    /// An empty queue for tasks 0 to `tasks` - 1 and slots 1 to `slots`, which its pushes name;
    /// `first_tag` is any number. Refuses 10, 11.
    pub fn open(tasks: u64, slots: u64, first_tag: u32) -> Result<Queue, Refusal> {
        let mut queue = Queue::held(tasks, slots, false);
        queue.lend().open(tasks, slots, first_tag)?;
        Ok(queue)
    }

    /// The same with all slots in a pool, from which its pushes take them. Refuses 10, 11.
    pub fn open_pooled(tasks: u64, slots: u64, first_tag: u32) -> Result<Queue, Refusal> {
        let mut queue = Queue::held(tasks, slots, true);
        queue.lend().open_pooled(tasks, slots, first_tag)?;
        Ok(queue)
    }

    /// Tables long enough for an opening, the next table only of a pooled one.
    pub(crate) fn held(tasks: u64, slots: u64, pooled: bool) -> Queue {
        // Outside the limits the library refuses; no table is then needed.
        let (held_tasks, held_slots) = (tasks.min(MOST_TASKS), slots.min(MOST_SLOTS));
        Queue {
            control: Control::default(),
            records: vec![Record::default(); held_tasks as usize],
            lefts: vec![0; rows(held_slots)],
            rights: vec![0; rows(held_slots)],
            labels: vec![0; rows(held_slots)],
            marks: vec![0; mark_words(held_slots)],
            next: vec![0; if pooled { rows(held_slots) } else { 0 }],
        }
    }

    pub(crate) fn lend(&mut self) -> Tables<'_> {
        Tables {
            control: &mut self.control,
            records: &mut self.records,
            lefts: &mut self.lefts,
            rights: &mut self.rights,
            labels: &mut self.labels,
            marks: &mut self.marks,
            next: &mut self.next,
        }
    }

    pub(crate) fn shared(&self) -> Shared<'_> {
        let Queue { control, records, lefts, rights, labels, marks, next } = self;
        Shared { control, records, lefts, rights, labels, marks, next }
    }

    /// Starts a push of `label` in a free slot. Refuses 13, 41, 15, 30, 32, 33.
    pub fn push(
        &mut self,
        task: usize,
        side: Side,
        slot: u64,
        label: u32,
    ) -> Result<Answer, Refusal> {
        self.lend().push(task, side as u64, slot, label)
    }

    /// Starts a push of `label` in a slot of the pool. Refuses 13, 41, 30, 33.
    pub fn push_pooled(&mut self, task: usize, side: Side, label: u32) -> Result<Answer, Refusal> {
        self.lend().push_pooled(task, side as u64, label)
    }

    /// Starts a pop. Refuses 13, 30, 33.
    pub fn pop(&mut self, task: usize, side: Side) -> Result<Answer, Refusal> {
        self.lend().pop(task, side as u64)
    }

    /// Moves one task by one step. A call belongs to its task, whoever steps it; the answer is told
    /// once, to the caller of the step that answers. Refuses 13, 31.
    pub fn step(&mut self, task: usize) -> Result<Answer, Refusal> {
        self.lend().step(task)
    }

    /// Steps one task until it answers, `most` times at the most. Refuses as [`step`](Queue::step) does,
    /// with `most` 0 too.
    pub fn run(&mut self, task: usize, most: u64) -> Run {
        self.lend().run(task, most)
    }

    /// Steps one task, alone, to its answer: [`POOLED_PUSH_STEPS`] are enough in a queue that these
    /// calls alone wrote to. Refuses as [`step`](Queue::step) does.
    pub fn finish(&mut self, task: usize) -> Result<Answer, Refusal> {
        self.run(task, POOLED_PUSH_STEPS).outcome
    }

    /// What to do about [`Refusal::Worn`]: steps every busy task to its answer, opens again with
    /// `first_tag`, and pushes the labels that wait again, in their order. The answers, one for each
    /// task, `None` where it was idle: a popped label is nowhere else.
    ///
    /// ```
    /// use zeppolecape::{Answer, Queue, Refusal, Side, LAST_START_TAG};
    ///
    /// let mut queue = Queue::open_pooled(2, 3, LAST_START_TAG as u32)?;
    /// queue.push_pooled(0, Side::Right, 700)?;
    /// queue.finish(0)?;
    /// assert_eq!(queue.pop(1, Side::Left), Err(Refusal::Worn));
    /// assert_eq!(queue.renew(0)?, [None, None]);
    /// queue.pop(1, Side::Left)?;
    /// assert_eq!(queue.finish(1)?, Answer::Popped { slot: 1, label: 700 });
    /// # Ok::<(), Refusal>(())
    /// ```
    ///
    /// Refuses [`Refusal::Worn`], and changes nothing, where after `first_tag` there are fewer tags
    /// than two for each slot.
    pub fn renew(&mut self, first_tag: u32) -> Result<Vec<Option<Answer>>, Refusal> {
        if u64::from(first_tag) + 2 * self.control.slots > LAST_START_TAG {
            return Err(Refusal::Worn);
        }
        let tasks = self.records().len();
        let mut answers = Vec::with_capacity(tasks);
        for task in 0..tasks {
            let busy = self.records[task].place != 0;
            answers.push(if busy { Some(self.finish(task)?) } else { None });
        }
        let waiting = self.waiting();
        let Control { tasks, slots, pooled, .. } = self.control;
        match pooled {
            0 => self.lend().open(tasks, slots, first_tag)?,
            _ => self.lend().open_pooled(tasks, slots, first_tag)?,
        }
        for (slot, (_, label)) in (1..).zip(waiting) {
            match pooled {
                0 => self.push(0, Side::Right, slot, label)?,
                _ => self.push_pooled(0, Side::Right, label)?,
            };
            self.finish(0)?;
        }
        Ok(answers)
    }

    /// Anchor's fields, busy tasks, labels waiting, slots taken, each task's retries.
    pub fn report(&self) -> Report {
        report(self.shared()).expect("an open queue is sound")
    }

    /// What all tasks share.
    pub fn control(&self) -> &Control {
        &self.control
    }

    /// One record for each task.
    pub fn records(&self) -> &[Record] {
        // After a return to a queue with fewer tasks there are more, which are nobody's.
        &self.records[..self.control.tasks as usize]
    }

    /// Whether a slot is taken.
    ///
    /// # Panics
    /// Where the slot is above the last mark word's.
    pub fn is_taken(&self, slot: u64) -> bool {
        self.marks[slot as usize / 64] >> (slot % 64) & 1 == 1
    }

    /// A slot to be named in a push: no label and no call holds it.
    pub fn free_slot(&self) -> Option<u64> {
        (1..=self.control.slots).find(|&slot| !self.is_taken(slot))
    }
}

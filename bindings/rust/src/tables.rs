//! The calls on lent tables.

use crate::numbers::outcome;
use crate::raw;
use crate::{Anchor, Answer, Control, Record, Refusal, Report, Run};

/// Lent tables: any contents, any lengths.
#[derive(Debug)]
pub struct Tables<'a> {
    /// What all tasks share.
    pub control: &'a mut Control,
    /// One record for each task.
    pub records: &'a mut [Record],
    /// The Left link words, [`rows`](crate::rows) of them.
    pub lefts: &'a mut [u64],
    /// The Right link words, as many.
    pub rights: &'a mut [u64],
    /// The labels, as many.
    pub labels: &'a mut [u32],
    /// The marks, [`mark_words`](crate::mark_words) of them.
    pub marks: &'a mut [u64],
    /// The next table of a pooled queue, [`rows`](crate::rows) of it; else it may be empty.
    pub next: &'a mut [u64],
}

/// A call of the library: the given arguments, then the tables, which always come last.
macro_rules! call {
    ($tables:ident . $name:ident($($argument:expr),*) $($next:ident)?) => {
        // SAFETY: `&mut` slices are non-null, aligned, disjoint and as long as the counts that go
        // with them, and nobody else uses them during the call. The rest is checked by the library.
        unsafe {
            raw::$name(
                $($argument,)*
                $tables.lefts.as_mut_ptr(),
                $tables.lefts.len(),
                $tables.rights.as_mut_ptr(),
                $tables.rights.len(),
                $tables.labels.as_mut_ptr(),
                $tables.labels.len(),
                $tables.marks.as_mut_ptr(),
                $tables.marks.len(),
                $($tables.$next.as_mut_ptr(), $tables.$next.len(),)?
            )
        }
    };
}

/// The tables as calls that only read them are lent them.
pub(crate) struct Shared<'a> {
    pub control: &'a Control,
    pub records: &'a [Record],
    pub lefts: &'a [u64],
    pub rights: &'a [u64],
    pub labels: &'a [u32],
    pub marks: &'a [u64],
    pub next: &'a [u64],
}

/// A call that only reads: control, the given arguments, then the tables.
macro_rules! look {
    ($tables:ident . $name:ident($($argument:expr),*) $($next:ident)?) => {
        // SAFETY: slices are non-null, aligned and as long as the counts that go with them; what is
        // written is lent by `&mut`. The rest is checked by the library.
        unsafe {
            $crate::raw::$name(
                $tables.control,
                $($argument,)*
                $tables.lefts.as_ptr(),
                $tables.lefts.len(),
                $tables.rights.as_ptr(),
                $tables.rights.len(),
                $tables.labels.as_ptr(),
                $tables.labels.len(),
                $tables.marks.as_ptr(),
                $tables.marks.len(),
                $($tables.$next.as_ptr(), $tables.$next.len(),)?
            )
        }
    };
}
pub(crate) use {call, look};

/// What a call answers that has no more to tell: 0, or a refusal.
pub(crate) fn done(code: u32) -> Result<(), Refusal> {
    match code {
        0 => Ok(()),
        number => Err(Refusal::answered(u64::from(number))),
    }
}

impl Tables<'_> {
    pub(crate) fn shared(&self) -> Shared<'_> {
        let Tables { control, records, lefts, rights, labels, marks, next } = self;
        Shared { control, records, lefts, rights, labels, marks, next }
    }

    /// Opens an empty queue whose pushes name their slots. Refuses 10, 11, 12.
    pub fn open(&mut self, tasks: u64, slots: u64, first_tag: u32) -> Result<(), Refusal> {
        let (records, count) = (self.records.as_mut_ptr(), self.records.len());
        done(call!(self.zc_open(self.control, records, count, tasks, slots, first_tag)))
    }

    /// Opens an empty queue with all slots in a pool. Refuses 10, 11, 12.
    pub fn open_pooled(&mut self, tasks: u64, slots: u64, first_tag: u32) -> Result<(), Refusal> {
        let (records, count) = (self.records.as_mut_ptr(), self.records.len());
        let code =
            call!(self.zc_open_pooled(self.control, records, count, tasks, slots, first_tag) next);
        done(code)
    }

    /// Starts a push. Refuses 34 for control, 12, 13, 14, 41, 15, 34 for the record, 30, 32, 33.
    pub fn push(
        &mut self,
        task: usize,
        side: u64,
        slot: u64,
        label: u32,
    ) -> Result<Answer, Refusal> {
        let (records, count) = (self.records.as_mut_ptr(), self.records.len());
        outcome(call!(self.zc_push(self.control, records, count, task, side, slot, label) next))
    }

    /// Starts a push with a slot from the pool. Refuses 34 for control, 12, 13, 14, 41, 34 for the
    /// record, 30, 33.
    pub fn push_pooled(&mut self, task: usize, side: u64, label: u32) -> Result<Answer, Refusal> {
        let (records, count) = (self.records.as_mut_ptr(), self.records.len());
        outcome(call!(self.zc_push_pooled(self.control, records, count, task, side, label) next))
    }

    /// Starts a pop. Refuses 34 for control, 12, 13, 14, 34 for the record, 30, 33.
    pub fn pop(&mut self, task: usize, side: u64) -> Result<Answer, Refusal> {
        let (records, count) = (self.records.as_mut_ptr(), self.records.len());
        outcome(call!(self.zc_pop(self.control, records, count, task, side) next))
    }

    /// Moves one task by one step. Refuses 34 for control, 12, 13, 34 for the record, 31, 34 for what
    /// the step touches.
    pub fn step(&mut self, task: usize) -> Result<Answer, Refusal> {
        let (records, count) = (self.records.as_mut_ptr(), self.records.len());
        outcome(call!(self.zc_step(self.control, records, count, task) next))
    }

    /// The same step on one lent record: no 13, and 12 looks at no records.
    pub fn step_record(&mut self, one: &mut Record) -> Result<Answer, Refusal> {
        outcome(call!(self.zc_step_record(self.control, one) next))
    }

    /// Steps a task until it does not answer running, `most` times at the most. Refuses what its first
    /// [`step`](Tables::step) is refused by, or would be with `most` 0; a later step that would be
    /// refused is not made, and the answer is running at the task's place.
    pub fn run(&mut self, task: usize, most: u64) -> Run {
        let (records, count) = (self.records.as_mut_ptr(), self.records.len());
        let raw::RunReply { code, label, value, steps } =
            call!(self.zc_run(self.control, records, count, task, most) next);
        Run { outcome: outcome(raw::Reply { code, label, value }), steps }
    }

    /// Reports. Refuses 34 for control, 12, 34 for the walk.
    pub fn report(&self) -> Result<Report, Refusal> {
        report(self.shared())
    }
}

pub(crate) fn report(tables: Shared<'_>) -> Result<Report, Refusal> {
    let (records, count) = (tables.records.as_ptr(), tables.records.len());
    let reply = look!(tables.zc_report(records, count) next);
    let raw::ReportReply { code, tag, status, left, right, busy, waiting, taken, retries } = reply;
    let anchor = Anchor { tag, status, left, right };
    match code {
        0 => Ok(Report { anchor, busy, waiting, taken, retries }),
        number => Err(Refusal::answered(number)),
    }
}

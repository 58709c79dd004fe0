//! A run file under construction, rehearsed as it grows: a scenario can look at where
//! every task stands before it decides what comes next.

use crate::machine::Answer;
use crate::runfile::{append, MOST_STEPS, OPEN, OPEN_POOLED, POP, PUSH, PUSH_POOLED, STEPS};
use crate::tables::{Record, Storage};
use std::io::{self, Write};

pub struct Script {
    file: Vec<u8>,
    steps: Vec<u8>,
    stage: Storage,
}

impl Script {
    /// Begins with an opening, which must be one that is accepted.
    pub fn open(tasks: u8, slots: u16, first_tag: u32) -> Script {
        let mut script = Script::begin(OPEN, tasks, slots, first_tag);
        let opened = script.stage.lend().open(tasks.into(), slots.into(), first_tag);
        opened.expect("a script begins with an accepted opening");
        script
    }

    /// Begins with a pooled opening.
    pub fn open_pooled(tasks: u8, slots: u16, first_tag: u32) -> Script {
        let mut script = Script::begin(OPEN_POOLED, tasks, slots, first_tag);
        let opened = script.stage.lend().open_pooled(tasks.into(), slots.into(), first_tag);
        opened.expect("a script begins with an accepted opening");
        script
    }

    fn begin(tag: u8, tasks: u8, slots: u16, first_tag: u32) -> Script {
        let mut script = Script { file: Vec::new(), steps: Vec::new(), stage: Storage::default() };
        let mut content = vec![tasks];
        content.extend_from_slice(&slots.to_be_bytes());
        content.extend_from_slice(&first_tag.to_be_bytes());
        append(&mut script.file, tag, &content);
        script
    }

    /// Starts a push; whether it was accepted.
    pub fn push(&mut self, task: u8, side: u8, slot: u16, label: u32) -> bool {
        self.end_steps();
        let mut content = vec![task, side];
        content.extend_from_slice(&slot.to_be_bytes());
        content.extend_from_slice(&label.to_be_bytes());
        append(&mut self.file, PUSH, &content);
        self.stage.lend().push(task.into(), side.into(), slot.into(), label).is_ok()
    }

    /// Starts a push that names no slot; whether it was accepted.
    pub fn push_pooled(&mut self, task: u8, side: u8, label: u32) -> bool {
        self.end_steps();
        let mut content = vec![task, side];
        content.extend_from_slice(&label.to_be_bytes());
        append(&mut self.file, PUSH_POOLED, &content);
        self.stage.lend().push_pooled(task.into(), side.into(), label).is_ok()
    }

    /// Starts a pop; whether it was accepted.
    pub fn pop(&mut self, task: u8, side: u8) -> bool {
        self.end_steps();
        append(&mut self.file, POP, &[task, side]);
        self.stage.lend().pop(task.into(), side.into()).is_ok()
    }

    /// One step; neighbouring steps share a field.
    pub fn step(&mut self, task: u8) -> Answer {
        if self.steps.len() == MOST_STEPS {
            self.end_steps();
        }
        self.steps.push(task);
        self.stage.lend().step(task.into())
    }

    /// Ends the field of steps under way, if there is one.
    pub fn end_steps(&mut self) {
        if !self.steps.is_empty() {
            append(&mut self.file, STEPS, &self.steps);
            self.steps.clear();
        }
    }

    pub fn no_steps(&mut self) {
        self.end_steps();
        append(&mut self.file, STEPS, &[]);
    }

    /// Hands the file so far on, once it is longer than this; the steps under way stay.
    pub fn write_beyond(&mut self, length: usize, out: &mut impl Write) -> io::Result<()> {
        if self.file.len() > length {
            out.write_all(&self.file)?;
            self.file.clear();
        }
        Ok(())
    }

    pub fn finish(mut self) -> Vec<u8> {
        self.end_steps();
        self.file
    }

    /// All tables as the run so far leaves them.
    pub fn stage(&self) -> &Storage {
        &self.stage
    }

    pub fn record(&self, task: u8) -> &Record {
        &self.stage.records[usize::from(task)]
    }

    pub fn is_idle(&self, task: u8) -> bool {
        self.record(task).place == 0
    }

    pub fn is_free(&mut self, slot: u16) -> bool {
        !self.stage.lend().shared.is_marked(slot.into())
    }
}

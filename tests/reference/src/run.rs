//! A run file carried out, event by event, each told to a watcher.

use crate::machine::Moved;
use crate::refusal::Refusal;
use crate::runfile::{Field, Fields, Malformed};
use crate::tables::{Storage, Tables};
use crate::trace::Page;
use std::io::{self, Write};

#[derive(Clone, Copy, Debug, PartialEq, Eq)]
pub enum Call {
    Open {
        pooled: bool,
    },
    /// Without a slot where the push leaves it to the pool.
    Push {
        side: u8,
        slot: Option<u16>,
        label: u32,
    },
    Pop {
        side: u8,
    },
    Step,
    File,
}

/// *Done* is an opening or a start carried out, printed `ok`.
#[derive(Clone, Copy, Debug, PartialEq, Eq)]
pub enum Reply {
    Done,
    Moved(Moved),
    Refused(Refusal),
}

#[derive(Clone, Copy, Debug, PartialEq, Eq)]
pub struct Event {
    pub task: Option<u8>,
    pub call: Call,
    pub reply: Reply,
}

/// Somebody who looks on: told before each event where it falls, and after it what it was.
pub trait Watcher {
    fn before(&mut self, tables: &Tables, task: Option<u8>);
    fn after(&mut self, tables: &Tables, event: &Event) -> Result<(), String>;
}

/// Nobody looks on; the plain program runs at full speed.
pub struct Nobody;

impl Watcher for Nobody {
    fn before(&mut self, _: &Tables, _: Option<u8>) {}
    fn after(&mut self, _: &Tables, _: &Event) -> Result<(), String> {
        Ok(())
    }
}

#[derive(Debug)]
pub enum Failure {
    Output(io::Error),
    /// The event's number and what the watcher found.
    Violation(u64, String),
}

impl From<io::Error> for Failure {
    fn from(error: io::Error) -> Failure {
        Failure::Output(error)
    }
}

/// Carries out a whole run file and prints its trace, also when a watcher objects.
pub fn run<W: Write>(file: &[u8], out: W, watcher: &mut impl Watcher) -> Result<(), Failure> {
    let mut storage = Storage::default();
    let mut run = Run { tables: storage.lend(), page: Page::new(out), watcher };
    let ran = run.file(file);
    run.page.finish()?;
    ran
}

struct Run<'a, W: Write, O: Watcher> {
    tables: Tables<'a>,
    page: Page<W>,
    watcher: &'a mut O,
}

impl<W: Write, O: Watcher> Run<'_, W, O> {
    fn file(&mut self, file: &[u8]) -> Result<(), Failure> {
        for field in Fields::of(file) {
            match field {
                Err(Malformed) => self.malformed()?,
                Ok(Field::Open { pooled, tasks, slots, first_tag }) => {
                    let open = |tables: &mut Tables| {
                        let (tasks, slots) = (tasks.into(), slots.into());
                        start(match pooled {
                            false => tables.open(tasks, slots, first_tag),
                            true => tables.open_pooled(tasks, slots, first_tag),
                        })
                    };
                    if self.event(None, Call::Open { pooled }, open)? != Reply::Done {
                        break;
                    }
                }
                Ok(field) => self.calls(field)?,
            }
        }
        Ok(())
    }

    fn malformed(&mut self) -> Result<(), Failure> {
        self.event(None, Call::File, |_| Reply::Refused(Refusal::Malformed)).map(drop)
    }

    fn calls(&mut self, field: Field) -> Result<(), Failure> {
        match field {
            Field::Push { task, side, slot, label } => {
                let push = |tables: &mut Tables| {
                    start(match slot {
                        Some(slot) => tables.push(task.into(), side.into(), slot.into(), label),
                        None => tables.push_pooled(task.into(), side.into(), label),
                    })
                };
                self.event(Some(task), Call::Push { side, slot, label }, push)?;
            }
            Field::Pop { task, side } => {
                let pop = |tables: &mut Tables| start(tables.pop(task.into(), side.into()));
                self.event(Some(task), Call::Pop { side }, pop)?;
            }
            Field::Steps(tasks) => {
                for &task in tasks {
                    self.event(Some(task), Call::Step, |tables| step(tables, task))?;
                }
            }
            Field::Open { .. } => unreachable!("a second opening is malformed"),
        }
        Ok(())
    }

    /// Carries out one call, prints its line and tells the watcher.
    fn event(
        &mut self,
        task: Option<u8>,
        call: Call,
        act: impl FnOnce(&mut Tables) -> Reply,
    ) -> Result<Reply, Failure> {
        self.watcher.before(&self.tables, task);
        let reply = act(&mut self.tables);
        let event = Event { task, call, reply };
        self.page.line(&event, self.tables.shared.control.anchor)?;
        self.watcher
            .after(&self.tables, &event)
            .map_err(|what| Failure::Violation(self.page.events(), what))?;
        Ok(reply)
    }
}

fn start(outcome: Result<(), Refusal>) -> Reply {
    outcome.map_or_else(Reply::Refused, |()| Reply::Done)
}

fn step(tables: &mut Tables, task: u8) -> Reply {
    tables.step(task.into()).map_or_else(Reply::Refused, Reply::Moved)
}

//! A run carried out touch by touch. Each call is followed from its start over its effect to its
//! answer: an effect is a step of the call's own that leaves an end of Anchor other than before, or
//! that answers *empty* or *no slot* (document 01, "The clerk"; document 02, #104).

mod accounts;

pub use accounts::{on_the_way, Accounts, Missing};

use crate::queue::{Entry, Machine, Opening};
use crate::run::{Operation, Place, Run};
use crate::say::Stop;
use crate::words;
use zeppolecape::{Anchor, Answer, Control, Record, Refusal, MOST_TASKS};

/// What a touch was asked to be.
#[derive(Clone, Copy, Debug, PartialEq, Eq)]
pub enum Asked {
    Open(Opening),
    Push { side: u8, slot: Option<u16>, label: u32 },
    Pop { side: u8 },
    Step,
    File,
}

/// What it was told.
#[derive(Clone, Copy, Debug, PartialEq, Eq)]
pub enum Reply {
    /// An opening or a start, carried out.
    Done,
    Moved(Answer),
    Refused(Refusal),
    /// 16: the run file is malformed here.
    Malformed,
}

impl Reply {
    /// The answer as `trace` prints it.
    pub fn traced(self) -> String {
        match self {
            Reply::Done => "ok".into(),
            Reply::Moved(Answer::Running(place)) => format!("at{place}"),
            Reply::Moved(Answer::Pushed) => "pushed".into(),
            Reply::Moved(Answer::Empty) => "empty".into(),
            Reply::Moved(Answer::Popped { slot, label }) => format!("got:{slot}:{label}"),
            Reply::Moved(Answer::NoFreeSlot) => "noslot".into(),
            Reply::Refused(refusal) => format!("no{}", refusal.number()),
            Reply::Malformed => "no16".into(),
        }
    }
}

/// A call from its accepted start on.
#[derive(Clone, Copy, Debug, PartialEq, Eq)]
pub struct Call {
    pub asked: Asked,
    /// The event of its start, and of its effect once it has had it.
    pub start: u64,
    pub effect: Option<u64>,
}

/// One event of a run, with what there was before and after it.
#[derive(Clone, Debug)]
pub struct Touch {
    /// From 1, as in a trace.
    pub event: u64,
    pub at: Place,
    pub task: Option<u8>,
    pub asked: Asked,
    pub reply: Reply,
    pub before: (Control, Option<Record>),
    pub after: (Control, Option<Record>),
    /// The call that the touch belongs to, with its effect if it has had it.
    pub call: Option<Call>,
    /// The call takes effect with this touch.
    pub effect: bool,
}

impl Touch {
    /// The task's count of retries, if this touch was a change that failed.
    pub fn retry(&self) -> Option<u64> {
        let (before, after) = (self.before.1?, self.after.1?);
        (after.retries > before.retries).then_some(after.retries)
    }
}

/// A queue, and what became of the calls made on it.
#[derive(Clone, Default)]
pub struct Play<M> {
    pub queue: M,
    pub accounts: Accounts,
    calls: [Option<Call>; MOST_TASKS as usize],
    events: u64,
    ended: bool,
}

impl<M: Machine> Play<M> {
    pub fn of(queue: M) -> Play<M> {
        let (accounts, calls) = (Accounts::default(), Default::default());
        Play { queue, accounts, calls, events: 0, ended: false }
    }

    /// Carries out a run, each operation of which `seen` is handed; what ends it early is told.
    pub fn to_its_end(
        &mut self,
        mut run: Run,
        mut seen: impl FnMut(Operation),
    ) -> Result<(), Stop> {
        while let Some((at, operation)) = run.next()? {
            let Some(touch) = self.touch(at, operation) else { break };
            seen(operation);
            if self.ended {
                let name = run.name();
                return Err(Stop::failed(format!("{name}: {at}: {}", words::touch(&touch, ""))));
            }
        }
        Ok(())
    }

    /// The labels waiting, or why they cannot be told.
    pub fn waiting(&mut self) -> Result<Vec<Entry>, Refusal> {
        self.queue.waiting()
    }

    /// The call that a task is in.
    pub fn call(&self, task: u8) -> Option<&Call> {
        self.calls.get(usize::from(task))?.as_ref()
    }

    /// Carries out an operation; nothing once the run has ended: a malformed place or a refused opening
    /// ends it.
    pub fn touch(&mut self, at: Place, operation: Operation) -> Option<Touch> {
        if self.ended {
            return None;
        }
        let (task, asked) = asked(operation);
        let before = self.seen(task);
        let reply = self.carry_out(task, asked);
        let after = self.seen(task);
        self.events += 1;
        self.ended = match asked {
            Asked::File => true,
            Asked::Open(_) => reply != Reply::Done,
            _ => false,
        };
        let event = self.events;
        let mut touch =
            Touch { event, at, task, asked, reply, before, after, call: None, effect: false };
        self.follow(&mut touch);
        self.accounts.follow(&touch);
        Some(touch)
    }

    fn seen(&self, task: Option<u8>) -> (Control, Option<Record>) {
        (self.queue.control(), task.and_then(|task| self.queue.record(task)))
    }

    fn carry_out(&mut self, task: Option<u8>, asked: Asked) -> Reply {
        let task = task.unwrap_or_default();
        let started = match asked {
            Asked::Open(opening) => self.queue.open(opening),
            Asked::Push { side, slot, label } => self.queue.push(task, side, slot, label),
            Asked::Pop { side } => self.queue.pop(task, side),
            Asked::File => return Reply::Malformed,
            Asked::Step => return self.queue.step(task).map_or_else(Reply::Refused, Reply::Moved),
        };
        started.map_or_else(Reply::Refused, |()| Reply::Done)
    }

    /// Notes the start, effect and answer of the touched call.
    fn follow(&mut self, touch: &mut Touch) {
        let Some(task) = touch.task.map(usize::from) else { return };
        match (touch.asked, touch.reply) {
            (_, Reply::Refused(_)) => {}
            (Asked::Push { .. } | Asked::Pop { .. }, Reply::Done) => {
                let call = Call { asked: touch.asked, start: touch.event, effect: None };
                self.calls[task] = Some(call);
                touch.call = Some(call);
            }
            (Asked::Step, Reply::Moved(answer)) => {
                touch.effect = ends(touch.before.0.anchor) != ends(touch.after.0.anchor)
                    || matches!(answer, Answer::Empty | Answer::NoFreeSlot);
                let mut call = self.calls[task];
                if let (Some(call), true) = (&mut call, touch.effect) {
                    call.effect.get_or_insert(touch.event); // a wrong queue may do it twice
                }
                touch.call = call;
                let answered = !matches!(answer, Answer::Running(_));
                self.calls[task] = call.filter(|_| !answered);
            }
            _ => {}
        }
    }
}

fn asked(operation: Operation) -> (Option<u8>, Asked) {
    match operation {
        Operation::Open { pooled, tasks, slots, first_tag } => {
            (None, Asked::Open(Opening { pooled, tasks, slots, first_tag }))
        }
        Operation::Push { task, side, slot, label } => {
            (Some(task), Asked::Push { side, slot, label })
        }
        Operation::Pop { task, side } => (Some(task), Asked::Pop { side }),
        Operation::Step { task } => (Some(task), Asked::Step),
        Operation::Malformed => (None, Asked::File),
    }
}

fn ends(word: u64) -> (u64, u64) {
    let anchor = Anchor::of(word);
    (anchor.left, anchor.right)
}

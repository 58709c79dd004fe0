//! A state and its events.

use super::scopes::{Scope, Wish};
use crate::check::Judge;
use crate::machine::Moved;
use crate::run::{Call, Event, Reply, Watcher};
use crate::tables::{Record, Storage, PUSH};
use crate::ways::{Role, Way};
use crate::word::Anchor;

#[derive(Clone, Hash)]
pub struct State {
    storage: Storage,
    judge: Judge,
    /// Calls that each task may still start.
    left: Vec<u8>,
}

/// What an event was: a start, a step with neither effect nor answer, one with an effect, an answer.
#[derive(Clone, Copy, Debug, PartialEq, Eq)]
pub enum Kind {
    Start,
    Silent,
    Effect,
    Pushed,
    Popped,
    Empty,
    NoSlot,
}

/// An event's outcome; `way` is the one that a step went.
pub struct Next {
    pub state: State,
    pub kind: Kind,
    pub way: Option<Way>,
}

impl State {
    /// The queue opened, and the labels that wait at first pushed at the right by task 0, alone.
    pub fn opened(scope: &Scope) -> Result<State, String> {
        let (tasks, slots) = (scope.calls.len() as u64, scope.slots);
        let mut storage = Storage::fitting(tasks, slots);
        match scope.pooled {
            true => storage.lend().open_pooled(tasks, slots, 0).expect("opens"),
            false => storage.lend().open(tasks, slots, 0).expect("opens"),
        }
        let left = scope.calls.iter().map(|calls| calls.len() as u8).collect();
        let mut state = State { storage, judge: Judge::default(), left };
        for label in 1..=scope.waiting {
            state = state.started(0, Wish::Push(1), label.into())?.expect("a free slot");
            while state.storage.records[0].place != 0 {
                state = state.stepped(0)?.state;
            }
        }
        Ok(state)
    }

    /// The kind of call that each task has under way.
    pub fn under_way(&self) -> impl Iterator<Item = Option<u64>> + '_ {
        self.storage.records.iter().map(|record| (record.place != 0).then_some(record.kind))
    }

    /// Every event of every task.
    pub fn events(&self, scope: &Scope) -> Result<Vec<(usize, Next)>, String> {
        let mut found = Vec::new();
        for task in 0..self.left.len() {
            if self.storage.records[task].place != 0 {
                found.push((task, self.stepped(task)?));
            } else if self.left[task] > 0 {
                let label = 10 * (task as u32 + 1) + u32::from(self.left[task]);
                let calls = &scope.calls[task];
                for &wish in calls[calls.len() - usize::from(self.left[task])] {
                    if let Some(mut state) = self.started(task, wish, label)? {
                        state.left[task] -= 1;
                        found.push((task, Next { state, kind: Kind::Start, way: None }));
                    }
                }
            }
        }
        Ok(found)
    }

    fn stepped(&self, task: usize) -> Result<Next, String> {
        let before = self.storage.records[task];
        let mut state = self.clone();
        state.judge.before(&state.storage.lend(), Some(task as u8));
        let moved = state.storage.lend().step(task as u64);
        let moved = moved.map_err(|refusal| format!("a busy task's step: {refusal:?}"))?;
        state.judged(task, Call::Step, Reply::Moved(moved))?;
        let kind = match moved {
            Moved::Running(_) if ends(self) == ends(&state) => Kind::Silent,
            Moved::Running(_) => Kind::Effect,
            Moved::Pushed => Kind::Pushed,
            Moved::Popped { .. } => Kind::Popped,
            Moved::Empty => Kind::Empty,
            Moved::NoSlot => Kind::NoSlot,
        };
        let way = way(&before, &state.storage.records[task], state.storage.control.pooled == 1);
        Ok(Next { state, kind, way: Some(way) })
    }

    /// After a start; nothing where a push finds no slot to name.
    fn started(&self, task: usize, wish: Wish, label: u32) -> Result<Option<State>, String> {
        let mut state = self.clone();
        state.judge.before(&state.storage.lend(), Some(task as u8));
        let mut tables = state.storage.lend();
        let (number, slots) = (task as u64, tables.shared.control.slots);
        let free = (1..=slots).find(|&slot| !tables.shared.is_marked(slot));
        let (call, answer) = match (wish, tables.shared.is_pooled(), free) {
            (Wish::Pop(side), ..) => (Call::Pop { side }, tables.pop(number, side.into())),
            (Wish::Push(side), true, _) => {
                let call = Call::Push { side, slot: None, label };
                (call, tables.push_pooled(number, side.into(), label))
            }
            (Wish::Push(side), false, Some(slot)) => {
                let call = Call::Push { side, slot: Some(slot as u16), label };
                (call, tables.push(number, side.into(), slot, label))
            }
            (Wish::Push(_), false, None) => return Ok(None),
        };
        answer.map_err(|refusal| format!("an idle task's start: {refusal:?}"))?;
        state.judged(task, call, Reply::Done)?;
        Ok(Some(state))
    }

    fn judged(&mut self, task: usize, call: Call, reply: Reply) -> Result<(), String> {
        let event = Event { task: Some(task as u8), call, reply };
        self.judge.after(&self.storage.lend(), &event)?;
        // So that equal tables make equal states, however they came about.
        self.judge.before(&self.storage.lend(), None);
        Ok(())
    }
}

fn ends(state: &State) -> (u64, u64) {
    let anchor = Anchor::unpack(state.storage.control.anchor);
    (anchor.left, anchor.right)
}

/// The way that a step went, from a task's record to the one that it left.
fn way(from: &Record, to: &Record, pooled: bool) -> Way {
    let role = match (from.kind, from.finishing) {
        (PUSH, 0) => Role::Push,
        (PUSH, _) => Role::Finishing,
        _ => Role::Pop,
    };
    let failed = to.retries != from.retries;
    Way { pooled, place: from.place, role, failed, next: to.place }
}

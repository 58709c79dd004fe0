//! The sequential deque, document 01's clerk, served effect by effect.
//!
//! It sees the starts, the answers and Anchor's ends, and nothing else of the program. Of a
//! push that names no slot it is told the end that the effect sets on its side (#104).

use crate::machine::Moved;
use crate::run::{Call, Event, Reply};
use crate::tables::MOST_TASKS;
use crate::word::{Anchor, Side};
use std::collections::VecDeque;

#[derive(Clone, Copy, Debug, PartialEq, Eq, Hash)]
pub struct Entry {
    pub slot: u64,
    pub label: u32,
}

/// What a call wants, as its start named it.
#[derive(Clone, Copy, PartialEq, Eq, Hash)]
enum Wish {
    Push(Entry),
    /// The label of a push that leaves the slot to the pool.
    PooledPush(u32),
    Pop,
}

/// A call from its accepted start on.
#[derive(Clone, Copy, PartialEq, Eq, Hash)]
struct OpenCall {
    side: Side,
    wish: Wish,
    served: Option<Moved>,
}

#[derive(Clone, Default, PartialEq, Eq, Hash)]
pub struct SequentialDeque {
    queue: VecDeque<Entry>,
    calls: [Option<OpenCall>; MOST_TASKS as usize],
}

impl SequentialDeque {
    /// The entries from left to right.
    pub fn queue(&self) -> &VecDeque<Entry> {
        &self.queue
    }

    /// Follows one event; `before` and `after` are Anchor around it.
    pub fn follow(&mut self, event: &Event, before: u64, after: u64) -> Result<(), String> {
        let (Some(task), false) = (event.task, matches!(event.reply, Reply::Refused(_))) else {
            return Ok(());
        };
        let task = usize::from(task);
        match (event.call, event.reply) {
            (Call::Push { side, slot: Some(slot), label }, Reply::Done) => {
                self.begin(task, side, Wish::Push(Entry { slot: slot.into(), label }))
            }
            (Call::Push { side, slot: None, label }, Reply::Done) => {
                self.begin(task, side, Wish::PooledPush(label))
            }
            (Call::Pop { side }, Reply::Done) => self.begin(task, side, Wish::Pop),
            (Call::Step, Reply::Moved(moved)) => self.step(task, moved, before, after),
            _ => Err(format!("deque: no such event {event:?}")),
        }
    }

    fn begin(&mut self, task: usize, side: u8, wish: Wish) -> Result<(), String> {
        if self.calls[task].is_some() {
            return Err(format!("deque: task {task} starts a call within a call"));
        }
        let side = Side::numbered(side.into());
        self.calls[task] = Some(OpenCall { side, wish, served: None });
        Ok(())
    }

    fn step(&mut self, task: usize, moved: Moved, before: u64, after: u64) -> Result<(), String> {
        let Some(mut call) = self.calls[task] else {
            return Err(format!("deque: task {task} steps outside any call"));
        };
        let spoken = matches!(moved, Moved::Empty | Moved::NoSlot);
        if ends(before) != ends(after) || spoken {
            if call.served.is_some() {
                return Err(format!("deque: task {task}'s call has a second effect"));
            }
            call.served = Some(self.serve(&call, moved, after));
        }
        self.calls[task] = Some(call);
        if let Moved::Running(_) = moved {
            return Ok(());
        }
        self.calls[task] = None;
        match call.served {
            Some(reply) if reply == moved => Ok(()),
            Some(reply) => {
                Err(format!("deque: task {task} answers {moved:?}, the deque {reply:?}"))
            }
            None => Err(format!("deque: task {task} answers {moved:?} without an effect")),
        }
    }

    /// Serves a call whose effect is a step that answers `moved` and leaves Anchor `after`.
    fn serve(&mut self, call: &OpenCall, moved: Moved, after: u64) -> Moved {
        let entry = match call.wish {
            Wish::Pop => return self.serve_pop(call.side),
            Wish::PooledPush(_) if moved == Moved::NoSlot => return Moved::NoSlot,
            Wish::PooledPush(label) => Entry { slot: Anchor::unpack(after).end(call.side), label },
            Wish::Push(entry) => entry,
        };
        match call.side {
            Side::Left => self.queue.push_front(entry),
            Side::Right => self.queue.push_back(entry),
        }
        Moved::Pushed
    }

    fn serve_pop(&mut self, side: Side) -> Moved {
        let taken = match side {
            Side::Left => self.queue.pop_front(),
            Side::Right => self.queue.pop_back(),
        };
        taken.map_or(Moved::Empty, |Entry { slot, label }| Moved::Popped { slot, label })
    }
}

fn ends(word: u64) -> (u64, u64) {
    let anchor = Anchor::unpack(word);
    (anchor.left, anchor.right)
}

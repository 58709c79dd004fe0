//! A list of starts and steps carried out on a queue that is opened for it.

use crate::numbers::outcome;
use crate::tables::call;
use crate::{raw, Answer, Queue, Refusal, Side, Tables};
use alloc::vec;
use alloc::vec::Vec;

/// Words of a request: task, operation, side, slot, label.
pub const REQUEST_WORDS: usize = 5;
/// Words of an answer: code, label, value.
pub const ANSWER_WORDS: usize = 3;

/// A start or step of a task, to be carried out.
#[derive(Clone, Copy, Debug, PartialEq, Eq)]
pub enum Request {
    /// As [`Queue::push`].
    Push {
        /// The task that pushes.
        task: usize,
        /// The end at which it pushes.
        side: Side,
        /// A free slot.
        slot: u64,
        /// The label pushed.
        label: u32,
    },
    /// As [`Queue::push_pooled`].
    PushPooled {
        /// The task that pushes.
        task: usize,
        /// The end at which it pushes.
        side: Side,
        /// The label pushed.
        label: u32,
    },
    /// As [`Queue::pop`].
    Pop {
        /// The task that pops.
        task: usize,
        /// The end at which it pops.
        side: Side,
    },
    /// As [`Queue::step`].
    Step {
        /// The task that is moved.
        task: usize,
    },
}

impl Request {
    /// Its five words.
    pub fn words(self) -> [u64; REQUEST_WORDS] {
        match self {
            Request::Push { task, side, slot, label } => {
                [task as u64, raw::ASK_PUSH, side as u64, slot, label.into()]
            }
            Request::PushPooled { task, side, label } => {
                [task as u64, raw::ASK_PUSH_POOLED, side as u64, 0, label.into()]
            }
            Request::Pop { task, side } => [task as u64, raw::ASK_POP, side as u64, 0, 0],
            Request::Step { task } => [task as u64, raw::ASK_STEP, 0, 0, 0],
        }
    }
}

impl Tables<'_> {
    /// Opens a queue and carries out the requests in order, as many as there are and have room for an
    /// answer, and tells how many: [`REQUEST_WORDS`] and [`ANSWER_WORDS`] each, as in the header.
    /// Refuses 10, 11, 12.
    pub fn serve(
        &mut self,
        pooled: bool,
        tasks: u64,
        slots: u64,
        first_tag: u32,
        requests: &[u64],
        answers: &mut [u64],
    ) -> Result<usize, Refusal> {
        let (records, count) = (self.records.as_mut_ptr(), self.records.len());
        let reply = call!(self.zc_serve(
            self.control, records, count, pooled.into(), tasks, slots, first_tag,
            requests.as_ptr(), requests.len(), answers.as_mut_ptr(), answers.len()
        ) next);
        match reply.code {
            0 => Ok(reply.served as usize),
            number => Err(Refusal::answered(number)),
        }
    }
}

impl Queue {
    /// A queue opened by [`Queue::open`], or pooled by [`Queue::open_pooled`], with the requests carried
    /// out in order, and the outcome of each: by the library in one call.
    #[allow(clippy::type_complexity)]
    pub fn served(
        pooled: bool,
        tasks: u64,
        slots: u64,
        first_tag: u32,
        requests: &[Request],
    ) -> Result<(Queue, Vec<Result<Answer, Refusal>>), Refusal> {
        let words: Vec<u64> = requests.iter().flat_map(|request| request.words()).collect();
        let mut told = vec![0; ANSWER_WORDS * requests.len()];
        let mut queue = Queue::held(tasks, slots, pooled);
        queue.lend().serve(pooled, tasks, slots, first_tag, &words, &mut told)?;
        let answers = told.chunks_exact(ANSWER_WORDS).map(|words| {
            outcome(raw::Reply { code: words[0] as u32, label: words[1] as u32, value: words[2] })
        });
        Ok((queue, answers.collect()))
    }
}

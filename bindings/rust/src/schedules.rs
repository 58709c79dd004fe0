//! Every order for two tasks.

use crate::tables::call;
use crate::{raw, Queue, Refusal, Tables};
use alloc::vec::Vec;

/// Steps of a schedule at the most.
pub const MOST_SCHEDULE: usize = 48;
/// Words that [`Tables::next_schedule`] is lent.
pub const SCHEDULE_WORDS: usize = MOST_SCHEDULE + 1;

/// How a schedule ends.
#[derive(Clone, Copy, Debug, PartialEq, Eq)]
pub enum Ending {
    /// Both calls are answered.
    Answered,
    /// A call is unanswered after 48 steps.
    Cut,
    /// Its last step is refused [`Refusal::Unsound`].
    Stopped,
}

/// An order in which two half-done calls are stepped.
#[derive(Clone, Debug, PartialEq, Eq)]
pub struct Schedule {
    /// The task of each step, 0 or 1.
    pub tasks: Vec<usize>,
    /// How it ends.
    pub ending: Ending,
}

impl Tables<'_> {
    /// The schedule after the one that `memory` holds, stored over it: its length, then the tasks.
    /// `None` after the last. Refuses 34 for control, 12 (`memory` too), 34 for the walk, 42.
    pub fn next_schedule(&mut self, memory: &mut [u64]) -> Result<Option<Schedule>, Refusal> {
        let (records, count) = (self.records.as_ptr(), self.records.len());
        let (words, lent) = (memory.as_mut_ptr(), memory.len());
        let reply = call!(self.zc_next_schedule(&*self.control, records, count, words, lent) next);
        if reply.code != 0 {
            return Err(Refusal::answered(reply.code));
        }
        let ending = match reply.ending {
            raw::BOTH_ANSWERED => Ending::Answered,
            raw::CUT => Ending::Cut,
            raw::STOPPED => Ending::Stopped,
            _ => return Ok(None),
        };
        let tasks = memory[1..=reply.length as usize].iter().map(|&task| task as usize).collect();
        Ok(Some(Schedule { tasks, ending }))
    }
}

/// The schedules of a queue, smallest first in dictionary order.
#[derive(Debug)]
pub struct Schedules {
    queue: Queue,
    memory: [u64; SCHEDULE_WORDS],
}

impl Iterator for Schedules {
    type Item = Schedule;

    fn next(&mut self) -> Option<Schedule> {
        self.queue.lend().next_schedule(&mut self.memory).expect("admitted before")
    }
}

impl Queue {
    /// Every order in which its two half-done calls can be stepped, tried on a copy.
    ///
    /// ```
    /// use zeppolecape::{Queue, Refusal, Side};
    ///
    /// let mut queue = Queue::open(2, 3, 0)?;
    /// queue.pop(0, Side::Left)?;
    /// assert_eq!(queue.schedules().err(), Some(Refusal::NotTwo));
    /// queue.pop(1, Side::Right)?;
    /// let orders: Vec<_> = queue.schedules()?.map(|schedule| schedule.tasks).collect();
    /// assert_eq!(orders, [[0, 1], [1, 0]]);
    /// # Ok::<(), Refusal>(())
    /// ```
    ///
    /// Refuses [`Refusal::NotTwo`] where there are not two tasks, one is idle, or more than four
    /// labels wait.
    pub fn schedules(&self) -> Result<Schedules, Refusal> {
        let mut queue = self.clone();
        queue.lend().next_schedule(&mut [0; SCHEDULE_WORDS])?;
        Ok(Schedules { queue, memory: [0; SCHEDULE_WORDS] })
    }
}

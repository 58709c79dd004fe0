//! Every order for two tasks: document 02, #107.
//!
//! Each step is tried on a copy of all tables, so nothing has to be undone.

use crate::contents;
use crate::machine::{Answer, Moved};
use crate::refusal::{control_sound, demand, long_enough, Refusal};
use crate::tables::Storage;

/// A schedule with a call unanswered after so many steps is cut.
pub const MOST_STEPS: usize = 48;

/// What is lent for the search: a length and so many task numbers.
pub const MEMORY_WORDS: usize = MOST_STEPS + 1;

const MOST_WAITING: usize = 4;

#[derive(Clone, Copy, Debug, PartialEq, Eq)]
pub enum Ending {
    Answered,
    Cut,
    /// Its last step is refused 34.
    Refused,
}

#[derive(Clone, Debug, PartialEq, Eq)]
pub struct Schedule {
    pub tasks: Vec<u64>,
    pub ending: Ending,
    /// What each task's call answered, if it did.
    pub answers: [Option<Moved>; 2],
}

/// 34 for control and Anchor, 12, 34 for the walk, 42.
pub fn admit(storage: &mut Storage, memory_words: usize) -> Result<(), Refusal> {
    let tables = storage.lend();
    let control = *tables.shared.control;
    control_sound(&control)?;
    long_enough(&tables, control.tasks, control.slots, tables.shared.is_pooled())?;
    demand(memory_words >= MEMORY_WORDS, Refusal::Short)?;
    let waiting = contents::waiting(&tables.shared).ok_or(Refusal::Unsound)?.len();
    let both_busy = control.tasks == 2 && tables.records[..2].iter().all(|r| r.place != 0);
    demand(both_busy && waiting <= MOST_WAITING, Refusal::NotTwo)
}

/// Tells every schedule that the tables allow, smallest first in dictionary order, until `each`
/// says to stop; whether it went through all.
pub fn every(storage: &Storage, each: &mut dyn FnMut(&Schedule) -> bool) -> bool {
    let mut schedule = Schedule { tasks: Vec::new(), ending: Ending::Answered, answers: [None; 2] };
    go_on(storage, &mut schedule, &mut Search { after: &[], each })
}

/// What is searched for: schedules whose beginnings all lie before `after` are left out.
struct Search<'a> {
    after: &'a [u64],
    each: &'a mut dyn FnMut(&Schedule) -> bool,
}

impl Search<'_> {
    fn too_early(&self, beginning: &[u64]) -> bool {
        beginning < self.after && !self.after.starts_with(beginning)
    }
}

fn go_on(storage: &Storage, so_far: &mut Schedule, search: &mut Search) -> bool {
    let busy = [0, 1].map(|task: usize| storage.records[task].place != 0);
    if busy == [false, false] {
        so_far.ending = Ending::Answered;
        return (search.each)(so_far);
    }
    if so_far.tasks.len() == MOST_STEPS {
        so_far.ending = Ending::Cut;
        return (search.each)(so_far);
    }
    [0, 1].into_iter().filter(|&task| busy[task]).all(|task| {
        so_far.tasks.push(task as u64);
        let more = search.too_early(&so_far.tasks) || after_step(storage, so_far, task, search);
        so_far.tasks.pop();
        more
    })
}

fn after_step(storage: &Storage, so_far: &mut Schedule, task: usize, search: &mut Search) -> bool {
    let mut copy = storage.clone();
    let answer: Answer = copy.lend().step(task as u64);
    match answer {
        Err(refusal) => {
            assert_eq!(refusal, Refusal::Unsound, "a busy task's step is refused by 34 only");
            so_far.ending = Ending::Refused;
            (search.each)(so_far)
        }
        Ok(Moved::Running(_)) => go_on(&copy, so_far, search),
        Ok(answered) => {
            so_far.answers[task] = Some(answered);
            let more = go_on(&copy, so_far, search);
            so_far.answers[task] = None;
            more
        }
    }
}

/// The first schedule after a list in dictionary order.
pub fn next(storage: &Storage, after: &[u64]) -> Option<Schedule> {
    let mut schedule = Schedule { tasks: Vec::new(), ending: Ending::Answered, answers: [None; 2] };
    let mut found = None;
    let mut each = |schedule: &Schedule| {
        if schedule.tasks.as_slice() > after {
            found = Some(schedule.clone());
        }
        found.is_none()
    };
    go_on(storage, &mut schedule, &mut Search { after, each: &mut each });
    found
}

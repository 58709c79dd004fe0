//! Every order for two tasks: the library and the second program's own enumeration, on the same tables:
//! whole searches, and single calls with any memory and damaged tables. Answer, memory and all tables
//! are compared.

use crate::calls::called;
use crate::scene::scene;
use crate::tally::Tally;
use crate::world::Export;
use reference::dice::Dice;
use reference::schedules::{admit, every, next, Ending, Schedule, MEMORY_WORDS, MOST_STEPS};
use reference::tables::Storage;
use zeppolecape::raw;

#[derive(Clone, Copy, Debug, PartialEq, Eq)]
struct Told {
    code: u64,
    ending: u64,
    length: u64,
}

/// What was reached: the ways a schedule ends and *no more*, searches, and calls on pooled queues.
#[derive(Default)]
struct Seen {
    endings: [u64; 4],
    searches: u64,
    pooled: u64,
}

fn by_library(storage: &mut Storage, memory: &mut [u64]) -> Told {
    let Storage { control, lefts, rights, labels, marks, next, records } = storage;
    let control: *const raw::Control = (&raw const *control).cast();
    // SAFETY: the tables are disjoint, as long as their counts, and laid out as the library's.
    let reply = unsafe {
        called!(zc_next_schedule(
            control,
            records.as_ptr().cast(),
            records.len(),
            memory.as_mut_ptr(),
            memory.len(),
            lefts.as_mut_ptr(),
            lefts.len(),
            rights.as_mut_ptr(),
            rights.len(),
            labels.as_mut_ptr(),
            labels.len(),
            marks.as_mut_ptr(),
            marks.len(),
            next.as_mut_ptr(),
            next.len(),
        ))
    };
    Told { code: reply.code, ending: reply.ending, length: reply.length }
}

/// The answer that the papers give.
fn expected(storage: &mut Storage, memory: &[u64]) -> (Told, Vec<u64>) {
    let mut after = memory.to_vec();
    if let Err(refusal) = admit(storage, memory.len()) {
        return (Told { code: refusal.number().into(), ending: 0, length: 0 }, after);
    }
    let length = memory[0].min(MOST_STEPS as u64) as usize;
    match next(storage, &memory[1..=length]) {
        None => (Told { code: 0, ending: 3, length: 0 }, after),
        Some(Schedule { tasks, ending, .. }) => {
            let ending = match ending {
                Ending::Answered => 0,
                Ending::Cut => 1,
                Ending::Refused => 2,
            };
            after[0] = tasks.len() as u64;
            after[1..=tasks.len()].copy_from_slice(&tasks);
            (Told { code: 0, ending, length: tasks.len() as u64 }, after)
        }
    }
}

/// One call on both, with what each leaves.
fn compare(tally: &mut Tally, seen: &mut Seen, storage: &mut Storage, memory: &mut [u64]) -> Told {
    let (told, after) = expected(&mut storage.clone(), memory);
    let (before, given) = (storage.clone(), memory.to_vec());
    let answer = by_library(storage, memory);
    tally.answered(Export::NextSchedule, told.code as u32);
    if told.code == 0 {
        seen.endings[told.ending as usize] += 1;
        seen.pooled += before.control.pooled;
    }
    if answer != told || *memory != *after || *storage != before {
        tally.differs(|| {
            let asked = format!("zc_next_schedule: memory {given:?}\n{before:?}");
            format!("{asked}\n{answer:?}, expected {told:?}; {memory:?}, expected {after:?}\n{storage:?}")
        });
    }
    answer
}

/// All schedules in turn, where there are not too many.
fn search(tally: &mut Tally, seen: &mut Seen, storage: &mut Storage) {
    let mut listed = Vec::new();
    let whole = every(storage, &mut |schedule| {
        listed.push(schedule.clone());
        listed.len() < 300
    });
    let mut memory = [0; MEMORY_WORDS];
    for schedule in &listed {
        by_library(storage, &mut memory);
        let tasks = &memory[1..=memory[0].min(MOST_STEPS as u64) as usize];
        if tasks != schedule.tasks.as_slice() {
            tally.differs(|| format!("schedule {tasks:?}, expected {:?}", schedule.tasks));
        }
    }
    if whole && compare(tally, seen, storage, &mut memory).ending != 3 {
        tally.differs(|| format!("more than {} schedules", listed.len()));
    }
    seen.searches += 1;
}

pub fn schedules(tally: &mut Tally, dice: &mut Dice, rounds: u32) {
    let mut seen = Seen::default();
    for turn in 0..rounds {
        let (mut storage, mut memory) = scene(dice);
        let told = compare(tally, &mut seen, &mut storage, &mut memory);
        if told.code == 0 && turn % 8 == 0 {
            search(tally, &mut seen, &mut storage);
        }
    }
    let Seen { endings, searches, pooled } = seen;
    println!("endings {endings:?}, {searches} searches, {pooled} calls on pooled queues");
    let all = endings.iter().all(|&count| count != 0) && pooled != 0 && searches != 0;
    tally.check(all, "every ending of a schedule");
    tally.check_reached(&[Export::NextSchedule]);
}

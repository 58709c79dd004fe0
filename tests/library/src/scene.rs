//! Two half-done calls on a small queue, the queue now and then damaged; and a search memory.

use reference::damage::DAMAGES;
use reference::dice::Dice;
use reference::schedules::{admit, every, MEMORY_WORDS};
use reference::tables::Storage;
use reference::word::{LPUSH, RPUSH};

const SLOTS: u64 = 8;

/// A start of any kind; a slot that is taken is refused, and the task stays idle.
fn start(storage: &mut Storage, dice: &mut Dice, task: u64, pooled: bool) {
    let (side, label) = (dice.between(0, 1), dice.between(0, 9) as u32);
    let mut tables = storage.lend();
    let _ = match (dice.percent(50), pooled) {
        (true, true) => tables.push_pooled(task, side, label),
        (true, false) => tables.push(task, side, dice.between(1, SLOTS), label),
        _ => tables.pop(task, side),
    };
}

/// Four or five labels pushed, where there are slots: at the limit.
fn fill(storage: &mut Storage, dice: &mut Dice, pooled: bool) {
    for slot in 1..=dice.between(4, 5) {
        let side = dice.between(0, 1);
        let mut tables = storage.lend();
        let _ = match pooled {
            true => tables.push_pooled(0, side, slot as u32),
            false => tables.push(0, side, slot, slot as u32),
        };
        tables.run(0, 40).0.ok();
    }
}

/// Two fresh pushes that must first help a push which nobody finishes: the longest schedules.
fn crowded(dice: &mut Dice) -> Storage {
    let mut storage = Storage::fitting(2, SLOTS);
    storage.lend().open_pooled(2, SLOTS, 0).expect("opens");
    for label in 0..3 {
        storage.lend().push_pooled(0, 1, label).expect("starts");
        storage.lend().run(0, 40).0.expect("is pushed");
    }
    storage.control.anchor |= dice.pick(&[RPUSH, LPUSH]) << 30;
    for task in 0..2 {
        storage.lend().push_pooled(task, dice.between(0, 1), 9).expect("starts");
    }
    storage
}

/// Tables and memory.
pub fn scene(dice: &mut Dice) -> (Storage, Vec<u64>) {
    if dice.percent(30) {
        return (crowded(dice), turns(dice, 48));
    }
    let storage = half_done(dice);
    let memory = memory(dice, &storage);
    (storage, memory)
}

/// Labels pushed alone, then two calls begun and stepped a little.
fn half_done(dice: &mut Dice) -> Storage {
    let mut storage = Storage::fitting(3, SLOTS);
    let (pooled, slots) = (dice.percent(50), dice.pick(&[2, 4, SLOTS]));
    let tasks = if dice.percent(95) { 2 } else { 3 };
    let tag = dice.pick(&[0, 7, 4_294_967_200]);
    let opened = match pooled {
        true => storage.lend().open_pooled(tasks, slots, tag),
        false => storage.lend().open(tasks, slots, tag),
    };
    opened.expect("opens");
    if dice.percent(20) {
        fill(&mut storage, dice, pooled);
    }
    for _ in 0..dice.between(0, 3) {
        start(&mut storage, dice, 0, pooled);
        storage.lend().run(0, 40).0.ok();
    }
    for task in 0..2 {
        for _ in 0..3 {
            start(&mut storage, dice, task, pooled);
        }
    }
    for _ in 0..dice.between(0, 24) {
        let task = dice.between(0, 1);
        if dice.percent(90) {
            storage.lend().step(task).ok();
        }
        if storage.records[task as usize].place == 0 && dice.percent(90) {
            start(&mut storage, dice, task, pooled);
        }
    }
    spoil(&mut storage, dice);
    storage
}

/// Any counts, which matter to no schedule; and now and then damage.
fn spoil(storage: &mut Storage, dice: &mut Dice) {
    for record in &mut storage.records {
        record.retries = dice.pick(&[record.retries, 0, 4_294_967_295, u64::MAX]);
    }
    if dice.percent(40) {
        for _ in 0..dice.between(1, 2) {
            (DAMAGES[dice.throw() as usize % DAMAGES.len()].inflict)(storage, dice);
        }
    }
}

/// The tasks in turn, one for the other now and then.
fn turns(dice: &mut Dice, length: u64) -> Vec<u64> {
    let (chance, mut task) = (dice.between(40, 100), 0);
    let mut memory = vec![length; MEMORY_WORDS];
    for word in &mut memory[1..] {
        task = if dice.percent(chance) { 1 - task } else { task };
        *word = task;
    }
    memory
}

/// Zeros, one of the schedules, a beginning of one, or any words; now and then too short.
fn memory(dice: &mut Dice, storage: &Storage) -> Vec<u64> {
    let mut memory = vec![0; MEMORY_WORDS + dice.between(0, 2) as usize];
    match dice.between(0, 3) {
        0 => {}
        1 if admit(&mut storage.clone(), MEMORY_WORDS).is_ok() => {
            let (mut left, mut some) = (dice.between(0, 200), Vec::new());
            every(storage, &mut |schedule| {
                some.clone_from(&schedule.tasks);
                left = left.saturating_sub(1);
                left > 0
            });
            some.truncate(MEMORY_WORDS - 1);
            memory[0] = some.len() as u64;
            memory[1..=some.len()].copy_from_slice(&some);
        }
        2 => {
            let length = dice.between(0, 60);
            memory = turns(dice, length);
        }
        _ => {
            for word in &mut memory {
                *word = dice.pick(&[0, 0, 1, 1, 2, u64::MAX]);
            }
            memory[0] = dice.pick(&[0, 3, 12, 47, 48, 49, u64::MAX]);
        }
    }
    if dice.percent(15) {
        memory.truncate(MEMORY_WORDS - dice.between(1, 3) as usize);
    }
    memory
}

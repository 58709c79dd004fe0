//! The calls on damaged tables: nothing panics, a refused call writes nothing, the lent
//! record moves as the row does, and every kind of damage is refused somewhere.

use reference::damage::DAMAGES;
use reference::dice::Dice;
use reference::machine::{Answer, Moved};
use reference::refusal::{control_sound, record_sound, Refusal};
use reference::script::Script;
use reference::tables::Storage;
use std::collections::BTreeMap;

/// Tables as a random run leaves them, with every place among them; every second pooled.
fn snapshots(dice: &mut Dice) -> Vec<Storage> {
    let mut taken = Vec::new();
    for round in 0..30 {
        let (pooled, tag) = (round % 2 == 1, dice.pick(&[0, 9, 4_294_967_200]));
        let mut script = match pooled {
            false => Script::open(4, 5, tag),
            true => Script::open_pooled(4, 5, tag),
        };
        for _ in 0..600 {
            let (task, side) = (dice.between(0, 3) as u8, dice.between(0, 1) as u8);
            if !script.is_idle(task) {
                let _ = script.step(task);
            } else if dice.percent(45) {
                script.pop(task, side);
            } else if pooled {
                script.push_pooled(task, side, dice.throw() as u32);
            } else {
                script.push(task, side, dice.between(1, 5) as u16, dice.throw() as u32);
            }
            if dice.percent(10) {
                taken.push(script.stage().clone());
            }
        }
    }
    taken
}

#[derive(Clone, Copy)]
enum Call {
    Open(u64, u64),
    OpenPooled(u64, u64),
    Push(u64, u64, u64),
    PushPooled(u64, u64),
    Pop(u64, u64),
    Step(u64),
    Report,
}

fn any_call(dice: &mut Dice) -> Call {
    let task = dice.pick(&[0, 0, 1, 1, 2, 3, 4, u64::MAX]);
    let side = dice.pick(&[0, 1, 0, 1, 2, u64::MAX]);
    match dice.between(0, 11) {
        10 => Call::PushPooled(task, side),
        11 => Call::OpenPooled(dice.pick(&[0, 1, 16, 17]), dice.pick(&[0, 1, 5, 1_023, 1_024])),
        0 => Call::Push(task, side, dice.pick(&[0, 1, 2, 3, 5, 6, u64::MAX])),
        1 => Call::Pop(task, side),
        2 => Call::Report,
        3 => Call::Open(dice.pick(&[0, 1, 16, 17]), dice.pick(&[0, 1, 5, 1_023, 1_024])),
        _ => Call::Step(task),
    }
}

fn carry_out(storage: &mut Storage, call: Call) -> Result<Option<Moved>, Refusal> {
    let mut tables = storage.lend();
    match call {
        Call::Open(tasks, slots) => tables.open(tasks, slots, 3).map(|()| None),
        Call::OpenPooled(tasks, slots) => tables.open_pooled(tasks, slots, 3).map(|()| None),
        Call::PushPooled(task, side) => tables.push_pooled(task, side, 8).map(|()| None),
        Call::Push(task, side, slot) => tables.push(task, side, slot, 8).map(|()| None),
        Call::Pop(task, side) => tables.pop(task, side).map(|()| None),
        Call::Step(task) => tables.step(task).map(Some),
        Call::Report => tables.report().map(|_| None),
    }
}

/// The same step with the task's record lent alone and written back.
fn step_lent(storage: &mut Storage, task: usize) -> Answer {
    let mut record = storage.records[task];
    let answer = storage.lend().shared.step_lent(&mut record);
    storage.records[task] = record;
    answer
}

#[test]
fn damaged_tables_are_refused_whole() {
    let mut dice = Dice::new(1);
    let snapshots = snapshots(&mut dice);
    let mut refused: BTreeMap<&str, u32> = BTreeMap::new();
    let mut touched: BTreeMap<u64, u32> = BTreeMap::new();
    for _ in 0..250_000 {
        let mut storage = snapshots[dice.throw() as usize % snapshots.len()].clone();
        let damage = &DAMAGES[dice.throw() as usize % DAMAGES.len()];
        (damage.inflict)(&mut storage, &mut dice);
        if dice.percent(40) {
            (DAMAGES[dice.throw() as usize % DAMAGES.len()].inflict)(&mut storage, &mut dice);
        }
        let before = storage.clone();
        let call = any_call(&mut dice);
        let answer = carry_out(&mut storage, call);
        if let Err(refusal) = answer {
            assert_eq!(storage, before, "a refused call keeps every table");
            if let Refusal::Short | Refusal::Unsound = refusal {
                *refused.entry(damage.name).or_default() += 1;
            }
        }
        if let Call::Step(task) = call {
            lent_agrees(&before, &storage, task, answer);
            count_touch(&before, task, answer, &mut touched);
        }
    }
    let harmless = ["record: retries", "head: as read"];
    for damage in DAMAGES.iter().filter(|damage| !harmless.contains(&damage.name)) {
        assert!(refused.contains_key(damage.name), "{} is refused somewhere", damage.name);
    }
    let places: Vec<u64> = touched.into_keys().collect();
    let touching = [2, 3, 4, 5, 7, 9, 10, 11, 12, 13, 14, 15, 17];
    assert_eq!(places, touching, "34 for what a step touches");
}

/// Where the row's step gets as far as the record, the lent step does the same.
fn lent_agrees(
    before: &Storage,
    after: &Storage,
    task: u64,
    answer: Result<Option<Moved>, Refusal>,
) {
    let enough = before.records.len() as u64 >= before.control.tasks;
    if !enough || task >= before.control.tasks || task >= before.records.len() as u64 {
        return;
    }
    let mut storage = before.clone();
    assert_eq!(step_lent(&mut storage, task as usize).map(Some), answer);
    assert_eq!(storage, *after);
}

/// Counts the places that refuse 34 with control, Anchor and record sound.
fn count_touch(
    before: &Storage,
    task: u64,
    answer: Result<Option<Moved>, Refusal>,
    touched: &mut BTreeMap<u64, u32>,
) {
    if answer != Err(Refusal::Unsound) || control_sound(&before.control).is_err() {
        return;
    }
    let record = &before.records[task as usize];
    if record_sound(record, &before.control).is_ok() {
        *touched.entry(record.place).or_default() += 1;
    }
}

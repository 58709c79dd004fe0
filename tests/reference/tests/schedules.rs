//! How many schedules two fresh calls have, and their endings.

use reference::machine::Moved;
use reference::refusal::Refusal;
use reference::schedules::{admit, every, next, Ending, MEMORY_WORDS};
use reference::tables::Storage;
use reference::word::Side;

const PUSH: bool = true;
const POP: bool = false;

fn named(waiting: u64) -> Storage {
    let mut storage = Storage::fitting(2, 8);
    storage.lend().open(2, 8, 0).expect("opens");
    for slot in 1..=waiting {
        storage.lend().push(0, 1, slot, slot as u32).expect("starts");
        assert_eq!(storage.lend().run(0, 40).0, Ok(Moved::Pushed));
    }
    storage
}

fn start(storage: &mut Storage, task: u64, push: bool, side: Side) {
    let side = u64::from(side == Side::Right);
    let started = match push {
        PUSH => storage.lend().push(task, side, 5 + task, 90 + task as u32),
        POP => storage.lend().pop(task, side),
    };
    started.expect("starts");
}

fn two(waiting: u64, calls: [bool; 2], sides: [Side; 2]) -> Storage {
    let mut storage = named(waiting);
    for task in 0..2 {
        start(&mut storage, task as u64, calls[task], sides[task]);
    }
    storage
}

fn count(storage: &Storage) -> u64 {
    let mut many = 0;
    every(storage, &mut |schedule| {
        assert_eq!(schedule.ending, Ending::Answered);
        assert!(schedule.answers.iter().all(Option::is_some));
        many += 1;
        true
    });
    many
}

/// Document 02's two calls by the labels waiting, none to four.
fn counts(calls: [bool; 2], sides: [Side; 2]) -> Vec<u64> {
    (0..=4).map(|waiting| count(&two(waiting, calls, sides))).collect()
}

#[test]
fn push_and_push() {
    let expected = vec![6, 200_272, 200_272, 200_272, 200_272];
    assert_eq!(counts([PUSH, PUSH], [Side::Right, Side::Right]), expected);
    assert_eq!(counts([PUSH, PUSH], [Side::Left, Side::Right]), expected);
}

#[test]
fn push_and_pop() {
    let expected = vec![3, 18_644, 56_044, 56_044, 56_044];
    for sides in [[Side::Right, Side::Right], [Side::Left, Side::Right]] {
        assert_eq!(counts([PUSH, POP], sides), expected);
    }
    assert_eq!(counts([POP, PUSH], [Side::Left, Side::Left]), expected);
}

#[test]
fn pop_and_pop() {
    for sides in [[Side::Right, Side::Right], [Side::Left, Side::Right]] {
        assert_eq!(counts([POP, POP], sides), vec![2, 12, 86, 106, 106]);
    }
}

#[test]
fn each_once_and_then_no_more() {
    let storage = two(1, [POP, POP], [Side::Left, Side::Right]);
    let mut listed = Vec::new();
    every(&storage, &mut |schedule| {
        listed.push(schedule.tasks.clone());
        true
    });
    assert!(listed.windows(2).all(|pair| pair[0] < pair[1]));
    assert!(!listed
        .iter()
        .any(|one| listed.iter().any(|other| other != one && other.starts_with(one))));
    let mut handed = Vec::new();
    let mut last: Vec<u64> = Vec::new();
    while let Some(schedule) = next(&storage, &last) {
        last = schedule.tasks.clone();
        handed.push(schedule.tasks);
    }
    assert_eq!(handed, listed);
}

#[test]
fn a_damaged_record_shows_as_a_refused_step() {
    let mut storage = two(0, [POP, POP], [Side::Left, Side::Right]);
    storage.records[0].kind = 2;
    let mut told = Vec::new();
    every(&storage, &mut |schedule| {
        told.push((schedule.tasks.clone(), schedule.ending));
        true
    });
    assert_eq!(told, vec![(vec![0], Ending::Refused), (vec![1, 0], Ending::Refused)]);
}

#[test]
fn refusals_come_in_order() {
    let mut storage = two(4, [PUSH, PUSH], [Side::Left, Side::Right]);
    assert_eq!(admit(&mut storage, MEMORY_WORDS), Ok(()));
    storage.records[1].place = 0;
    assert_eq!(admit(&mut storage, MEMORY_WORDS), Err(Refusal::NotTwo));
    storage.lefts[4] = 0;
    assert_eq!(admit(&mut storage, MEMORY_WORDS), Err(Refusal::Unsound));
    assert_eq!(admit(&mut storage, MEMORY_WORDS - 1), Err(Refusal::Short));
    storage.control.tasks = 0;
    assert_eq!(admit(&mut storage, MEMORY_WORDS - 1), Err(Refusal::Unsound));
}

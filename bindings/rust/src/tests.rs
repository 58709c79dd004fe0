//! The tests that look into a queue.

use crate::Answer::*;
use crate::*;
use alloc::string::ToString;
use alloc::vec;
use alloc::vec::Vec;

/// Steps a task until it answers; the number of steps and the answer.
fn finish(queue: &mut Queue, task: usize) -> (u32, Answer) {
    for steps in 1..=100 {
        match queue.step(task) {
            Ok(Running(_)) => continue,
            Ok(answer) => return (steps, answer),
            Err(refusal) => panic!("{refusal}"),
        }
    }
    panic!("no answer")
}

/// Steps a task to a place.
fn reach(queue: &mut Queue, task: usize, place: u64) {
    let reached = (0..100).any(|_| queue.step(task) == Ok(Running(place)));
    assert!(reached, "place {place} not reached");
}

#[test]
fn documents_run() {
    let mut queue = Queue::open(2, 3, 0).unwrap();
    assert_eq!(queue.push(0, Side::Right, 1, 700), Ok(Running(1)));
    assert_eq!(queue.step(0), Ok(Running(2)));
    assert_eq!(queue.step(0), Ok(Pushed));
    assert_eq!(queue.control().anchor, 0x0000_0001_0000_8001);
    assert_eq!(queue.waiting(), [(1, 700)]);
    assert_eq!(queue.pop(1, Side::Left), Ok(Running(1)));
    assert_eq!(queue.step(1), Ok(Running(2)));
    assert_eq!(queue.step(1), Ok(Running(11)));
    assert_eq!(queue.step(1), Ok(Popped { slot: 1, label: 700 }));
    assert_eq!(queue.control().anchor, 0x0000_0002_0000_0000);
    assert_eq!(queue.waiting(), []);
}

#[test]
fn two_labels() {
    let mut queue = Queue::open(1, 2, 0).unwrap();
    queue.push(0, Side::Right, 1, 10).unwrap();
    assert_eq!(finish(&mut queue, 0), (2, Pushed));
    queue.push(0, Side::Right, 2, 20).unwrap();
    assert_eq!(finish(&mut queue, 0), (9, Pushed));
    assert_eq!(queue.control().anchor, 0x0000_0003_0000_8002);
    assert_eq!(queue.rights[1], 0x0000_0001_0000_0002);
    assert_eq!(queue.waiting(), [(1, 10), (2, 20)]);
    queue.pop(0, Side::Left).unwrap();
    assert_eq!(finish(&mut queue, 0), (4, Popped { slot: 1, label: 10 }));
    queue.pop(0, Side::Left).unwrap();
    assert_eq!(finish(&mut queue, 0), (3, Popped { slot: 2, label: 20 }));
    queue.pop(0, Side::Right).unwrap();
    assert_eq!(finish(&mut queue, 0), (1, Empty));
}

#[test]
fn waiting_follows_the_unstable_side() {
    for (side, order) in [(Side::Right, [1, 2]), (Side::Left, [2, 1])] {
        let mut queue = Queue::open(1, 2, 0).unwrap();
        queue.push(0, side, 1, 1).unwrap();
        finish(&mut queue, 0);
        queue.push(0, side, 2, 2).unwrap();
        reach(&mut queue, 0, 5);
        let slots: Vec<u64> = queue.waiting().iter().map(|entry| entry.0).collect();
        assert_eq!(slots, order);
    }
}

#[test]
fn waiting_in_lent_tables() {
    let mut queue = Queue::open(1, 3, 0).unwrap();
    for slot in 1..=3 {
        queue.push(0, Side::Right, slot, 10 * slot as u32).unwrap();
        finish(&mut queue, 0);
    }
    assert_eq!(queue.waiting(), [(1, 10), (2, 20), (3, 30)]);
    let (mut slots, mut labels) = ([9; 4], [8; 4]);
    assert_eq!(queue.lend().waiting(&mut slots[..2], &mut labels), Err(Refusal::Short));
    assert_eq!(queue.lend().waiting(&mut slots, &mut labels[..2]), Err(Refusal::Short));
    assert_eq!((slots, labels), ([9; 4], [8; 4]));
    assert_eq!(queue.lend().waiting(&mut slots, &mut labels[..3]), Ok(3));
    assert_eq!((slots, labels), ([1, 2, 3, 9], [10, 20, 30, 8]));
    for word in [0, 3, 4, 0x7fff, 1 | 1 << 15] {
        queue.lefts[2] = word;
        assert_eq!(queue.lend().waiting(&mut slots, &mut labels), Err(Refusal::Unsound));
    }
    queue.control = Control { slots: 3, anchor: u64::MAX, ..queue.control };
    assert_eq!(queue.lend().waiting(&mut slots, &mut labels), Err(Refusal::Unsound));
}

#[test]
fn refusals_of_an_owned_queue() {
    assert_eq!(Queue::open(0, 1, 0).unwrap_err(), Refusal::BadTasks);
    assert_eq!(Queue::open(u64::MAX, u64::MAX, 0).unwrap_err(), Refusal::BadTasks);
    assert_eq!(Queue::open(16, 1_024, 0).unwrap_err(), Refusal::BadSlots);
    let mut queue = Queue::open(16, 1_023, u32::MAX).unwrap();
    assert_eq!(queue.step(0), Err(Refusal::Idle));
    assert_eq!(queue.step(16), Err(Refusal::NoTask));
    assert_eq!(queue.pop(0, Side::Left), Err(Refusal::Worn));
    assert_eq!(queue.push(0, Side::Left, 1_024, 0), Err(Refusal::BadSlot));
    let mut queue = Queue::open(16, 1_023, LAST_START_TAG as u32).unwrap();
    assert_eq!(queue.push(15, Side::Left, 1_023, 0), Ok(Running(1)));
    assert_eq!(queue.push(15, Side::Left, 1, 0), Err(Refusal::Busy));
    assert_eq!(queue.push(0, Side::Left, 1_023, 0), Err(Refusal::Taken));
    assert_eq!(queue.free_slot(), Some(1));
}

#[test]
fn renewed_with_a_pop_half_done() {
    let mut queue = Queue::open(2, 4, LAST_START_TAG as u32 - 8).unwrap();
    for slot in 1..=4 {
        queue.push(0, Side::Right, slot, 10 * slot as u32).unwrap();
        finish(&mut queue, 0);
    }
    queue.pop(1, Side::Left).unwrap();
    queue.step(1).unwrap();
    let before = queue.clone();
    assert_eq!(queue.renew(LAST_START_TAG as u32 - 7), Err(Refusal::Worn));
    assert_eq!(queue.waiting(), before.waiting());
    assert_eq!(queue.records(), before.records());
    let popped = Some(Popped { slot: 1, label: 10 });
    assert_eq!(queue.renew(LAST_START_TAG as u32 - 8), Ok([None, popped].to_vec()));
    assert_eq!(queue.waiting(), [(1, 20), (2, 30), (3, 40)]);
    assert_eq!(queue.report().busy, 0);
}

#[test]
fn find_counts_from_the_left() {
    let mut queue = Queue::open(1, 5, 0).unwrap();
    for (side, slot, label) in
        [(Side::Right, 2, 7), (Side::Right, 3, 8), (Side::Left, 1, 7), (Side::Right, 5, 9)]
    {
        queue.push(0, side, slot, label).unwrap();
        queue.finish(0).unwrap();
    }
    let found = queue.find(&[9, 7, 1, 8, 7]).unwrap();
    let positions = vec![Some(4), Some(1), None, Some(3), Some(1)];
    assert_eq!(found, Found { rows: 4, positions });
    assert_eq!(queue.find(&[]).unwrap(), Found { rows: 4, positions: vec![] });
    assert_eq!(queue.find(&[0; 33]), Err(Refusal::ManyAsked));
}

#[test]
fn report_tells_every_field() {
    let mut queue = Queue::open(3, 70, 6).unwrap();
    queue.push(0, Side::Right, 65, 1).unwrap();
    queue.step(0).unwrap();
    queue.push(1, Side::Right, 66, 2).unwrap();
    finish(&mut queue, 1);
    queue.step(0).unwrap();
    queue.push(2, Side::Left, 3, 3).unwrap();
    reach(&mut queue, 2, 5);
    let anchor = Anchor { tag: 8, status: 2, left: 3, right: 66 };
    let mut retries = [0; MOST_TASKS as usize];
    retries[0] = 1;
    assert_eq!(queue.report(), Report { anchor, busy: 2, waiting: 2, taken: 3, retries });
    finish(&mut queue, 0);
    retries[0] = 2; // task 2 was faster as well
    queue.pop(0, Side::Left).unwrap();
    assert_eq!(queue.report().retries, retries, "an answer and a start keep the count");
}

#[test]
fn lent_tables_and_a_lent_record() {
    let (mut control, mut records) = (Control::default(), [Record::default(); 1]);
    let (mut lefts, mut rights, mut labels, mut marks) = ([7; 3], [7; 3], [7; 3], [7; 1]);
    let mut next = [7; 2];
    let mut tables = Tables {
        control: &mut control,
        records: &mut records,
        lefts: &mut lefts,
        rights: &mut rights,
        labels: &mut labels,
        marks: &mut marks,
        next: &mut next,
    };
    assert_eq!(tables.open(1, 3, 0), Err(Refusal::Short));
    assert_eq!(tables.report(), Err(Refusal::Unsound));
    assert_eq!(tables.open_pooled(1, 2, 0), Err(Refusal::Short));
    assert_eq!(tables.open_pooled(1, 1, 0), Ok(()));
    assert_eq!((tables.control.pooled, tables.control.head), (1, 1));
    assert_eq!(tables.next, [0, 0]);
    assert_eq!(tables.push_pooled(0, 2, 0), Err(Refusal::NoSide));
    tables.next = &mut [];
    assert_eq!(tables.report(), Err(Refusal::Short));
    assert_eq!(tables.open(1, 1, 0), Ok(()));
    assert_eq!(tables.push(0, 2, 1, 0), Err(Refusal::NoSide));
    assert_eq!(tables.pop(0, 0), Ok(Running(1)));
    let mut one = tables.records[0];
    tables.records = &mut [];
    assert_eq!(tables.step(0), Err(Refusal::Short));
    assert_eq!(tables.step_record(&mut one), Ok(Empty));
    assert_eq!(one, Record::default());
    assert_eq!(tables.lefts, [0, 0, 7]);
}

#[test]
fn refusals_have_their_numbers() {
    let known: Vec<u64> = (0..100).filter(|&n| Refusal::numbered(n).is_some()).collect();
    assert_eq!(
        known,
        [10, 11, 12, 13, 14, 15, 30, 31, 32, 33, 34, 40, 41, 42, 43, 44, 45, 46, 47, 48]
    );
    assert_eq!(Refusal::Worn.to_string(), "33: the Anchor tag is too high for another start");
}

#[test]
fn runs_to_its_answer() {
    let mut queue = Queue::open(2, 4, 0).unwrap();
    queue.push(0, Side::Right, 1, 11).unwrap();
    assert_eq!(queue.run(0, 0), Run { outcome: Ok(Running(1)), steps: 0 });
    assert_eq!(queue.run(0, 1), Run { outcome: Ok(Running(2)), steps: 1 });
    assert_eq!(queue.run(0, PUSH_STEPS), Run { outcome: Ok(Pushed), steps: 1 });
    for most in [0, 1] {
        assert_eq!(queue.run(0, most), Run { outcome: Err(Refusal::Idle), steps: 0 });
        assert_eq!(queue.run(2, most), Run { outcome: Err(Refusal::NoTask), steps: 0 });
    }
    // The longest way: 2 steps to see that its Anchor is old, 7 to help, 9 for itself.
    queue.push(0, Side::Right, 2, 12).unwrap();
    reach(&mut queue, 0, 5);
    queue.push(1, Side::Right, 4, 21).unwrap();
    reach(&mut queue, 1, 5);
    assert_eq!(queue.run(0, PUSH_STEPS).outcome, Ok(Pushed));
    queue.push(0, Side::Right, 3, 13).unwrap();
    reach(&mut queue, 0, 5);
    assert_eq!(queue.clone().run(1, PUSH_STEPS - 1).outcome, Ok(Running(10)));
    assert_eq!(queue.run(1, u64::MAX), Run { outcome: Ok(Pushed), steps: PUSH_STEPS });
    assert_eq!(queue.waiting(), [(1, 11), (2, 12), (3, 13), (4, 21)]);
}

#[test]
fn a_sheet_is_kept_or_broken() {
    let mut queue = Queue::open(1, 3, 0).unwrap();
    for (slot, label) in [(1, 700), (2, 800)] {
        queue.push(0, Side::Right, slot, label).unwrap();
        finish(&mut queue, 0);
    }
    let listed = [800, 900, 700];
    assert_eq!(queue.sheet(&listed, &[rule(3, 2)]), Ok(SheetVerdict::Kept));
    let broken = Ok(SheetVerdict::Broken { first: 1, second: 3 });
    assert_eq!(queue.sheet(&listed, &[rule(2, 3), rule(1, 2)]), broken);
    assert_eq!(queue.sheet(&listed, &[rule(1, 4)]), Err(Refusal::BadSheet));
    assert_eq!(queue.sheet(&listed, &[rule(1, 65_539)]), Err(Refusal::BadSheet));
    let mut words = [9; SHEET_WORDS + 1];
    assert_eq!(queue.sheet_words(&listed, &[rule(2, 3), rule(1, 2)], &mut words), broken);
    assert_eq!((words[0], words[1], words[2], words[32]), (6, 4, 0, 9));
    assert_eq!(queue.sheet_words(&listed, &[], &mut words[..31]), Err(Refusal::Short));
}

#[test]
fn two_lanes_become_one() {
    let lane = |labels: &[u32]| {
        let mut queue = Queue::open(2, 4, 0).unwrap();
        for (slot, &label) in (1..).zip(labels) {
            queue.push(0, Side::Right, slot, label).unwrap();
            finish(&mut queue, 0);
        }
        queue
    };
    let (first, mut second) = (lane(&[5, 1]), lane(&[5, 9]));
    let mut third = Queue::open(1, 4, 0).unwrap();
    second.pop(1, Side::Left).unwrap();
    assert_eq!(third.join(&first, &second), Err(Refusal::NotAtRest));
    let second = lane(&[5, 9]);
    assert_eq!(third.join(&first, &second), Ok(()));
    assert_eq!(third.find(&[1, 9]).unwrap().positions, [Some(2), Some(4)]);
    assert_eq!(third.join(&first, &second), Err(Refusal::NotAtRest));
    assert_eq!(Queue::open(1, 3, 0).unwrap().join(&first, &first), Err(Refusal::Crowded));
}

//! The judge can object: wrong answers, second effects and corrupted tables are named.

use reference::check::Judge;
use reference::machine::Moved;
use reference::run::{Call, Event, Reply, Watcher};
use reference::tables::{Record, Storage};
use reference::word::Link;

/// Tables and a judge that has followed two right pushes of slots 1 and 2.
fn two_waiting() -> (Storage, Judge) {
    let mut storage = Storage::default();
    let mut judge = Judge::default();
    storage.lend().open(2, 3, 0).expect("opens");
    for slot in [1_u16, 2] {
        let call = Call::Push { side: 1, slot: Some(slot), label: 10 * u32::from(slot) };
        judge.before(&storage.lend(), Some(0));
        storage.lend().push(0, 1, slot.into(), 10 * u32::from(slot)).expect("starts");
        follow(&mut judge, &mut storage, call, Reply::Done).expect("no objection");
        while storage.records[0].place != 0 {
            judge.before(&storage.lend(), Some(0));
            let moved = storage.lend().step(0).expect("steps");
            follow(&mut judge, &mut storage, Call::Step, Reply::Moved(moved))
                .expect("no objection");
        }
    }
    (storage, judge)
}

fn follow(
    judge: &mut Judge,
    storage: &mut Storage,
    call: Call,
    reply: Reply,
) -> Result<(), String> {
    judge.after(&storage.lend(), &Event { task: Some(0), call, reply })
}

/// Starts a left pop, steps it, and lets the judge see `answer` for its last step.
fn pop_left(answer: Moved, spoil: impl FnOnce(&mut Storage)) -> Result<(), String> {
    let (mut storage, mut judge) = two_waiting();
    judge.before(&storage.lend(), Some(0));
    storage.lend().pop(0, 0).expect("starts");
    follow(&mut judge, &mut storage, Call::Pop { side: 0 }, Reply::Done)?;
    for _ in 0..3 {
        judge.before(&storage.lend(), Some(0));
        let moved = storage.lend().step(0).expect("steps");
        follow(&mut judge, &mut storage, Call::Step, Reply::Moved(moved))?;
    }
    spoil(&mut storage);
    judge.before(&storage.lend(), Some(0));
    storage.lend().step(0).expect("steps");
    follow(&mut judge, &mut storage, Call::Step, Reply::Moved(answer))
}

const RIGHT: Moved = Moved::Popped { slot: 1, label: 10 };

#[test]
fn content_with_the_machine() {
    assert_eq!(pop_left(RIGHT, |_| {}), Ok(()));
}

#[test]
fn objects_to_another_label() {
    let objection = pop_left(Moved::Popped { slot: 1, label: 11 }, |_| {}).unwrap_err();
    assert!(objection.starts_with("deque: task 0 answers"), "{objection}");
}

#[test]
fn objects_to_a_second_effect() {
    let objection = pop_left(Moved::Empty, |_| {}).unwrap_err();
    assert!(objection.contains("second effect"), "{objection}");
}

#[test]
fn objects_to_an_answer_without_effect() {
    let (mut storage, mut judge) = two_waiting();
    judge.before(&storage.lend(), Some(0));
    storage.lend().push(0, 1, 3, 30).expect("starts");
    let call = Call::Push { side: 1, slot: Some(3), label: 30 };
    follow(&mut judge, &mut storage, call, Reply::Done).unwrap();
    judge.before(&storage.lend(), Some(0));
    storage.lend().step(0).expect("steps");
    let objection = follow(&mut judge, &mut storage, Call::Step, Reply::Moved(Moved::Pushed));
    assert!(objection.unwrap_err().contains("without an effect"));
}

#[test]
fn objects_to_another_label_waiting() {
    let objection = pop_left(RIGHT, |storage| storage.labels[2] = 21).unwrap_err();
    assert!(objection.starts_with("waiting:"), "{objection}");
}

#[test]
fn objects_to_a_link_tag_from_the_future() {
    let objection = pop_left(RIGHT, |storage| storage.lefts[3] = Link::new(99, 0).0).unwrap_err();
    assert!(objection.starts_with("invariant line 3"), "{objection}");
}

#[test]
fn objects_to_a_stray_mark() {
    let objection = pop_left(RIGHT, |storage| storage.marks[0] |= 1 << 3).unwrap_err();
    assert!(objection.starts_with("invariant line 21"), "{objection}");
}

/// Tables of a pooled queue with one slot, and a judge who has followed one push of task 0,
/// label 10, and the start of another of task 1, label 11.
fn pool_used_up() -> (Storage, Judge) {
    let mut storage = Storage::default();
    let mut judge = Judge::default();
    storage.lend().open_pooled(2, 1, 0).expect("opens");
    for task in [0, 1] {
        judge.before(&storage.lend(), Some(task));
        let label = 10 + u32::from(task);
        storage.lend().push_pooled(task.into(), 0, label).expect("starts");
        let call = Call::Push { side: 0, slot: None, label };
        let event = Event { task: Some(task), call, reply: Reply::Done };
        judge.after(&storage.lend(), &event).expect("no objection");
        while task == 0 && storage.records[0].place != 0 {
            step(&mut judge, &mut storage, 0, |moved| moved).expect("no objection");
        }
    }
    (storage, judge)
}

/// One step, of whose answer the judge is told something else.
fn step(
    judge: &mut Judge,
    storage: &mut Storage,
    task: u8,
    told: impl FnOnce(Moved) -> Moved,
) -> Result<(), String> {
    judge.before(&storage.lend(), Some(task));
    let moved = told(storage.lend().step(task.into()).expect("steps"));
    let event = Event { task: Some(task), call: Call::Step, reply: Reply::Moved(moved) };
    judge.after(&storage.lend(), &event)
}

#[test]
fn content_with_no_slot() {
    let (mut storage, mut judge) = pool_used_up();
    assert_eq!(step(&mut judge, &mut storage, 1, |moved| moved), Ok(()));
    assert_eq!(storage.records[1], Record::default());
}

#[test]
fn objects_to_pushed_where_there_is_no_slot() {
    let (mut storage, mut judge) = pool_used_up();
    let objection = step(&mut judge, &mut storage, 1, |_| Moved::Pushed).unwrap_err();
    assert!(objection.contains("without an effect"), "{objection}");
}

/// The program would pass demand 3; only the claim on *no slot* refuses it.
#[test]
fn objects_to_no_slot_while_one_lies_idle() {
    let (mut storage, mut judge) = pool_used_up();
    storage.control.slots = 2;
    let objection = step(&mut judge, &mut storage, 1, |moved| moved).unwrap_err();
    assert_eq!(objection, "no slot is answered, and nobody uses slot 2");
}

#[test]
fn objects_to_no_slot_for_a_pop() {
    let (mut storage, mut judge) = pool_used_up();
    judge.before(&storage.lend(), Some(0));
    storage.lend().pop(0, 0).expect("starts");
    follow(&mut judge, &mut storage, Call::Pop { side: 0 }, Reply::Done).expect("no objection");
    let objection = step(&mut judge, &mut storage, 0, |_| Moved::NoSlot).unwrap_err();
    assert!(objection.starts_with("deque: task 0 answers"), "{objection}");
}

/// The sequential deque is told the end that the effect sets, so a label in another slot is seen.
#[test]
fn objects_to_a_pooled_push_elsewhere() {
    let mut storage = Storage::default();
    let mut judge = Judge::default();
    storage.lend().open_pooled(1, 2, 0).expect("opens");
    judge.before(&storage.lend(), Some(0));
    storage.lend().push_pooled(0, 1, 10).expect("starts");
    let call = Call::Push { side: 1, slot: None, label: 10 };
    follow(&mut judge, &mut storage, call, Reply::Done).expect("no objection");
    for _ in 0..4 {
        step(&mut judge, &mut storage, 0, |moved| moved).expect("no objection");
    }
    storage.records[0].own = 2;
    let objection = step(&mut judge, &mut storage, 0, |moved| moved).unwrap_err();
    assert!(objection.starts_with("waiting: the tables hold [Entry { slot: 2, label: 0 }]"));
}

#[test]
fn objects_to_a_count_that_no_failed_change_made() {
    let objection = pop_left(RIGHT, |storage| storage.records[1].retries = 1).unwrap_err();
    assert_eq!(objection, "retries: the records count 1, the ledger 0");
}

//! Document 01's worked example and its bench cases, on the library.

use reference::machine::Moved::{self, Empty, NoSlot, Popped, Pushed, Running};
use reference::refusal::Refusal;
use reference::run::{run, Nobody};
use reference::tables::{Control, Record, Storage, POP, PUSH};
use reference::word::{Anchor, Link, LPUSH, RPUSH, STABLE};

fn opened(tasks: u64, slots: u64, first_tag: u32) -> Storage {
    let mut storage = Storage::default();
    storage.lend().open(tasks, slots, first_tag).expect("opens");
    storage
}

/// Steps a task until it is answered: the number of steps and the answer.
fn finish(storage: &mut Storage, task: u64) -> (u32, Moved) {
    for steps in 1..100 {
        match storage.lend().step(task).expect("steps") {
            Running(_) => {}
            answer => return (steps, answer),
        }
    }
    panic!("a task alone is answered soon");
}

/// Slot 1, then slot 2 pushed right alone, first tag 0.
fn two_waiting() -> Storage {
    let mut storage = opened(2, 3, 0);
    storage.lend().push(0, 1, 1, 10).expect("starts");
    assert_eq!(finish(&mut storage, 0), (2, Pushed));
    storage.lend().push(0, 1, 2, 20).expect("starts");
    assert_eq!(finish(&mut storage, 0), (9, Pushed));
    storage
}

#[test]
fn worked_example() {
    let file = [
        0x01, 0x00, 0x07, 0x02, 0x00, 0x03, 0x00, 0x00, 0x00, 0x00, 0x02, 0x00, 0x08, 0x00, 0x01,
        0x00, 0x01, 0x00, 0x00, 0x02, 0xbc, 0x04, 0x00, 0x02, 0x00, 0x00, 0x03, 0x00, 0x02, 0x01,
        0x00, 0x04, 0x00, 0x03, 0x01, 0x01, 0x01,
    ];
    let mut trace = Vec::new();
    run(&file, &mut trace, &mut Nobody).expect("runs");
    let expected = "\
event task call answer anchor
1 - open ok 0000000000000000
2 0 push ok 0000000000000000
3 0 step at2 0000000000000000
4 0 step pushed 0000000100008001
5 1 pop ok 0000000100008001
6 1 step at2 0000000100008001
7 1 step at11 0000000200000000
8 1 step got:1:700 0000000200000000
";
    assert_eq!(String::from_utf8_lossy(&trace), expected);
}

#[test]
fn anchors_pack() {
    let single = Anchor { tag: 1, status: STABLE, left: 1, right: 1 };
    let pushed = Anchor { tag: 2, status: RPUSH, left: 1, right: 2 };
    let widest = Anchor { tag: 0xffff_ffff, status: LPUSH, left: 0x7fff, right: 0x4001 };
    assert_eq!(single.pack(), 0x0000_0001_0000_8001);
    assert_eq!(pushed.pack(), 0x0000_0002_4000_8002);
    assert_eq!(widest.pack(), 0xffff_ffff_bfff_c001);
    for anchor in [single, pushed, widest] {
        assert_eq!(Anchor::unpack(anchor.pack()), anchor);
    }
}

#[test]
fn pop_on_empty_is_one_step() {
    let mut storage = opened(1, 1, 0);
    storage.lend().pop(0, 0).expect("starts");
    assert_eq!(finish(&mut storage, 0), (1, Empty));
}

#[test]
fn second_push_takes_nine_steps() {
    let storage = two_waiting();
    assert_eq!(storage.control.anchor, 0x0000_0003_0000_8002);
    assert_eq!(storage.rights[1], 0x0000_0001_0000_0002);
    assert_eq!(storage.records[0].retries, 0);
}

#[test]
fn pops_take_four_steps_then_three() {
    let mut storage = two_waiting();
    storage.lend().pop(1, 0).expect("starts");
    assert_eq!(finish(&mut storage, 1), (4, Popped { slot: 1, label: 10 }));
    storage.lend().pop(1, 0).expect("starts");
    assert_eq!(finish(&mut storage, 1), (3, Popped { slot: 2, label: 20 }));
}

/// As document 02, #106, has it: task 1 answers at its second step.
#[test]
fn two_pops_on_one_label() {
    let mut storage = opened(2, 1, 0);
    storage.lend().push(0, 1, 1, 700).expect("starts");
    finish(&mut storage, 0);
    storage.lend().pop(0, 0).expect("starts");
    storage.lend().pop(1, 1).expect("starts");
    let answers = [0, 1, 0, 1, 0, 1].map(|task| storage.lend().step(task));
    let got = Popped { slot: 1, label: 700 };
    let moved = [Running(2), Running(2), Running(11), Empty, got].map(Ok);
    assert_eq!(answers[..5], moved);
    assert_eq!(answers[5], Err(Refusal::Idle));
    let retries = storage.lend().report().expect("reports").retries;
    assert_eq!(retries[..3], [0, 1, 0], "the answer keeps the count");
}

/// What a task at 2 or 4 goes on to when another has changed Anchor to this one.
fn outrun(kind: u64, place: u64, now: Anchor) -> (Moved, Record) {
    let mut storage = opened(1, 3, 0);
    let seen = Anchor { tag: 4, status: STABLE, left: 1, right: 2 }.pack();
    let own = if kind == PUSH { 3 } else { 0 };
    let link = Link::new(9, 2).0;
    let started = Record { place, kind, side: 1, own, label: 8, ..Record::default() };
    let record = Record { seen, neighbour: 1, link, ..started };
    storage.records[0] = record;
    storage.control.anchor = now.pack();
    let before = storage.clone();
    let moved = storage.lend().step(0).expect("a failed change is never refused");
    let after = storage.records[0];
    assert_eq!(after.retries, 1);
    storage.records[0] = record;
    assert_eq!(storage, before, "only the record moves");
    (moved, Record { retries: 0, ..after })
}

#[test]
fn a_failed_change_goes_on_as_place_1() {
    let now = |status, left, right| Anchor { tag: 5, status, left, right };
    let found = [now(STABLE, 0, 0), now(STABLE, 2, 2), now(STABLE, 2, 1), now(LPUSH, 2, 1)];
    for place in [2, 4] {
        for (kind, nexts) in [(PUSH, [2, 3, 3, 5]), (POP, [0, 2, 3, 5])] {
            for (found, next) in found.into_iter().zip(nexts) {
                let (moved, after) = outrun(kind, place, found);
                if next == 0 {
                    assert_eq!((moved, after), (Empty, Record::default()));
                    continue;
                }
                assert_eq!((moved, after.place), (Running(next), next));
                assert_eq!(after.seen, found.pack(), "the word found is the reading");
                assert_eq!(
                    (after.label, after.neighbour, after.link),
                    (8, 1, 0x0000_0009_0000_0002)
                );
            }
        }
    }
}

#[test]
fn limits_of_an_opening() {
    let open = |tasks, slots| Storage::default().lend().open(tasks, slots, 0);
    assert_eq!(open(16, 1_023), Ok(()));
    assert_eq!(open(16, 1_024), Err(Refusal::Slots));
    assert_eq!(open(17, 1_024), Err(Refusal::Tasks));
    assert_eq!(open(1, 0), Err(Refusal::Slots));
    assert_eq!(open(0, 1), Err(Refusal::Tasks));
}

#[test]
fn limits_of_a_tag() {
    let start = |tag| opened(1, 1, tag).lend().pop(0, 0);
    assert_eq!(start(4_294_967_262), Ok(()));
    assert_eq!(start(4_294_967_263), Err(Refusal::WornTag));
}

/// Sixteen pushes started at the last tag, the worst case, all come to their end.
#[test]
fn sixteen_pushes_at_the_last_tag() {
    let mut storage = opened(16, 16, 4_294_967_262);
    for task in 0..16 {
        storage.lend().push(task, task % 2, task + 1, 0).expect("starts");
    }
    for task in 0..16 {
        assert_eq!(finish(&mut storage, task).1, Pushed);
    }
    assert_eq!(storage.control.anchor >> 32, 4_294_967_262 + 31);
}

/// A pooled queue with one task and so many slots.
fn pooled(slots: u64) -> Storage {
    let mut storage = Storage::default();
    storage.lend().open_pooled(1, slots, 7).expect("opens");
    storage
}

#[test]
fn a_pooled_opening() {
    let mut storage = Storage::default();
    storage.next.fill(9);
    storage.lend().open_pooled(2, 3, 0xffff_ffff).expect("opens");
    let anchor = 0xffff_ffff << 32;
    let control = Control { tasks: 2, slots: 3, anchor, pooled: 1, head: 1 };
    assert_eq!(storage.control, control);
    assert_eq!(storage.next[..5], [0, 2, 3, 0, 9]);
    let before = storage.next.clone();
    storage.lend().open(2, 3, 0).expect("opens");
    assert_eq!((storage.control.pooled, storage.control.head), (0, 0));
    assert_eq!(storage.next, before, "a named opening leaves the next table");
    storage.next.truncate(3);
    assert_eq!(storage.lend().open_pooled(2, 3, 0), Err(Refusal::Short));
    assert_eq!(storage.lend().open_pooled(17, 1_024, 0), Err(Refusal::Tasks));
    assert_eq!(storage.lend().open_pooled(16, 1_024, 0), Err(Refusal::Slots));
    assert_eq!(storage.lend().open(2, 3, 0), Ok(()), "nor looks at its length");
}

/// One push and one pop alone, and head and next table after each.
#[test]
fn a_slot_from_the_pool_and_back() {
    let mut storage = pooled(2);
    storage.lend().push_pooled(0, 1, 700).expect("starts");
    let started = Record { place: 12, side: 1, label: 700, ..Record::default() };
    assert_eq!(storage.records[0], started);
    assert_eq!((storage.control.head, storage.marks[0], storage.labels[1]), (1, 0, 0));
    let moved = [12, 13, 14].map(|_| storage.lend().step(0));
    assert_eq!(moved, [Ok(Running(13)), Ok(Running(14)), Ok(Running(1))]);
    assert_eq!(storage.control.head, 0x0000_0001_0000_0002);
    assert_eq!((storage.marks[0], storage.labels[1]), (2, 700));
    let got = Record { place: 1, own: 1, neighbour: 2, link: 1, ..started };
    assert_eq!(storage.records[0], got, "link and neighbour stay");
    assert_eq!(finish(&mut storage, 0), (2, Pushed));
    storage.lend().pop(0, 0).expect("starts");
    let moved = [1, 2, 11].map(|_| storage.lend().step(0));
    assert_eq!(moved, [Ok(Running(2)), Ok(Running(11)), Ok(Running(15))]);
    assert_eq!((storage.marks[0], storage.records[0].own, storage.records[0].label), (0, 1, 700));
    assert_eq!(finish(&mut storage, 0), (3, Popped { slot: 1, label: 700 }));
    assert_eq!(storage.control.head, 0x0000_0002_0000_0001);
    assert_eq!(storage.next[..3], [0, 2, 0]);
    assert_eq!(storage.records[0], Record::default());
}

#[test]
fn the_pool_runs_out() {
    let mut storage = pooled(1);
    for (steps, answer) in [(5, Pushed), (1, NoSlot), (1, NoSlot)] {
        storage.lend().push_pooled(0, 0, 1).expect("starts");
        assert_eq!(finish(&mut storage, 0), (steps, answer));
    }
    assert_eq!(storage.records[0], Record::default());
    assert_eq!(storage.control.head, 0x0000_0001_0000_0000);
}

/// 41 stands between 14 and 15, before all that the record and the marks decide.
#[test]
fn the_wrong_push() {
    let mut storage = pooled(1);
    assert_eq!(storage.lend().push(1, 2, 5, 0), Err(Refusal::NoTask));
    assert_eq!(storage.lend().push(0, 2, 5, 0), Err(Refusal::NoSide));
    assert_eq!(storage.lend().push(0, 0, 5, 0), Err(Refusal::WrongPush));
    storage.records[0].place = 99;
    assert_eq!(storage.lend().push(0, 0, 1, 0), Err(Refusal::WrongPush));
    assert_eq!(storage.lend().push_pooled(0, 0, 0), Err(Refusal::Unsound));
    let mut storage = opened(1, 1, 4_294_967_263);
    assert_eq!(storage.lend().push_pooled(0, 0, 0), Err(Refusal::WrongPush));
    storage.control.pooled = 1;
    assert_eq!(storage.lend().push_pooled(0, 0, 0), Err(Refusal::WornTag));
    storage.control.pooled = 2;
    assert_eq!(storage.lend().push_pooled(0, 0, 0), Err(Refusal::Unsound));
}

#[test]
fn the_report_counts() {
    let mut storage = two_waiting();
    storage.lend().push(0, 0, 3, 30).expect("starts");
    let report = storage.lend().report().expect("reports");
    assert_eq!((report.tag, report.status, report.left, report.right), (3, STABLE, 1, 2));
    assert_eq!((report.busy, report.waiting, report.taken), (1, 2, 3));
    storage.marks[0] |= 1 | 1 << 4;
    assert_eq!(storage.lend().report(), Ok(report), "slots 0 and 4 are not of 1 to 3");
}

#[test]
fn an_opening_keeps_what_lies_beyond() {
    let mut storage = Storage::default();
    storage.lefts.fill(7);
    storage.marks.fill(7);
    storage.records.iter_mut().for_each(|record| (record.place, record.retries) = (18, 9));
    storage.lend().open(2, 64, 5).expect("opens");
    assert_eq!((storage.lefts[64], storage.lefts[65]), (0, 7));
    assert_eq!((storage.marks[1], storage.marks[2]), (0, 7));
    assert_eq!((storage.records[1].place, storage.records[2].place), (0, 18));
    assert_eq!((storage.records[1].retries, storage.records[2].retries), (0, 9));
}

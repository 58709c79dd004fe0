//! Every line of the invariant can object: a sound state, spoiled in one way, breaks it.

use reference::contents::waiting;
use reference::invariant;
use reference::script::Script;
use reference::tables::Storage;
use reference::word::{Anchor, Link, LAST_TAG};

/// Slots 1 and 2 wait, and task 0 is idle.
fn two_waiting() -> Script {
    let mut script = Script::open(2, 3, 0);
    for slot in [1, 2] {
        script.push(0, 1, slot, 100);
        bring_to(&mut script, 0);
    }
    script
}

fn bring_to(script: &mut Script, place: u64) {
    while script.record(0).place != place {
        script.step(0).expect("a task alone comes to its place");
    }
}

/// Task 0 pushes slot 3 at the right and stands at a place.
fn push_at(place: u64) -> Storage {
    let mut script = two_waiting();
    script.push(0, 1, 3, 300);
    bring_to(&mut script, place);
    script.stage().clone()
}

/// Task 0 pops at the right and stands at a place.
fn pop_at(place: u64) -> Storage {
    let mut script = two_waiting();
    script.pop(0, 1);
    bring_to(&mut script, place);
    script.stage().clone()
}

/// A pooled queue: slot 1 waits, 2 and 3 are stacked; task 0 pushes and stands at a place.
fn pooled_push_at(place: u64) -> Storage {
    let mut script = Script::open_pooled(2, 3, 0);
    script.push_pooled(0, 1, 100);
    bring_to(&mut script, 0);
    script.push_pooled(0, 1, 300);
    bring_to(&mut script, place);
    script.stage().clone()
}

/// A pooled queue: slot 3 is stacked, 1 waits; task 0 pops slot 2 and stands at a place.
fn pooled_pop_at(place: u64) -> Storage {
    let mut script = Script::open_pooled(2, 3, 0);
    for label in [100, 200] {
        script.push_pooled(0, 1, label);
        bring_to(&mut script, 0);
    }
    script.pop(0, 1);
    bring_to(&mut script, place);
    script.stage().clone()
}

/// The state is sound, and after the spoiling this line objects.
fn breaks(line: u32, mut storage: Storage, spoil: impl FnOnce(&mut Storage)) {
    let queue = waiting(&storage.lend().shared).expect("a whole queue").into();
    assert_eq!(invariant::check(&storage.lend(), &queue), Ok(()), "before line {line} is broken");
    spoil(&mut storage);
    let objection = invariant::check(&storage.lend(), &queue).expect_err("an objection");
    assert!(objection.starts_with(&format!("invariant line {line}:")), "{line}: {objection}");
}

/// Somebody else changes Anchor: the same word with the next tag.
fn overtake(storage: &mut Storage) {
    storage.control.anchor += 1 << 32;
}

#[test]
fn the_queue_part() {
    breaks(1, push_at(1), |s| s.marks[0] &= !(1 << 2));
    breaks(1, push_at(1), |s| s.control.anchor = Anchor { left: 2, ..anchor(s) }.pack());
    breaks(2, push_at(1), |s| s.rights[1] = Link::new(1, 3).0);
    breaks(2, push_at(1), |s| s.lefts[2] = Link::new(0, 3).0);
    breaks(3, push_at(1), |s| s.lefts[3] |= 1 << 31);
    breaks(3, push_at(1), |s| s.lefts[3] = Link::new(99, 0).0);
    breaks(3, push_at(5), |s| s.rights[2] = Link::new(anchor(s).tag, 0).0);
    breaks(4, push_at(1), |s| s.control.anchor = Anchor { tag: LAST_TAG - 1, ..anchor(s) }.pack());
}

fn anchor(storage: &Storage) -> Anchor {
    Anchor::unpack(storage.control.anchor)
}

#[test]
fn the_task_part() {
    breaks(0, push_at(1), |s| s.records[0].side = 2);
    breaks(5, push_at(3), |s| {
        s.records[0].seen = Anchor { left: 2, right: 1, ..anchor(s) }.pack();
    });
    breaks(6, push_at(3), |s| s.records[0].place = 2);
    breaks(6, pop_at(3), |s| s.records[0].place = 2);
    breaks(7, push_at(1), |s| s.labels[3] = 301);
    breaks(7, push_at(1), |s| s.records[1] = s.records[0]);
    breaks(7, push_at(4), |s| s.lefts[3] = Link::new(0, 1).0);
    breaks(8, pop_at(11), |s| s.marks[0] &= !(1 << 2));
    breaks(9, pop_at(4), |s| s.records[0].neighbour = 3);
    breaks(9, push_at(6), |s| s.records[0].neighbour = 1);
}

#[test]
fn the_back_link() {
    breaks(10, push_at(7), |s| {
        overtake(s);
        s.records[0].neighbour = 0;
    });
    breaks(11, push_at(8), |s| s.records[0].link = Link::new(0, 3).0);
    breaks(11, push_at(8), |s| s.records[0].link = Link::new(1, 0).0);
    breaks(11, push_at(9), |s| s.records[0].link = Link::new(0, 1).0);
    breaks(12, push_at(9), overtake);
    breaks(13, push_at(9), |s| s.records[0].place = 10);
    breaks(21, push_at(3), |s| s.records[0].place = 0);
    breaks(21, pop_at(1), |s| s.marks[0] |= 1 << 3);
}

#[test]
fn the_pool() {
    breaks(14, pooled_push_at(12), |s| s.next[3] = 2);
    breaks(14, pooled_push_at(12), |s| s.control.head = Link::new(1, 1).0);
    breaks(15, pooled_push_at(12), |s| s.next[2] = 0);
    breaks(15, pooled_push_at(12), |s| s.control.head = Link::new(1, 0).0);
    breaks(16, pooled_push_at(12), |s| s.control.head |= 1 << 15);
    breaks(16, pooled_push_at(12), |s| s.next[1] = 4);
    breaks(17, pooled_push_at(12), |s| s.control.head += 1 << 32);
    breaks(17, pooled_push_at(14), |s| s.control.head += 1 << 32);
}

#[test]
fn the_pool_as_read() {
    breaks(0, pooled_push_at(13), |s| s.records[0].link = 0);
    breaks(0, pooled_push_at(14), |s| s.records[0].own = 2);
    breaks(18, pooled_push_at(13), |s| s.records[0].link = Link::new(1, 3).0);
    breaks(19, pooled_push_at(14), |s| s.records[0].neighbour = 1);
    breaks(19, pooled_push_at(14), |s| s.records[0].link = Link::new(1, 3).0);
    breaks(20, pooled_pop_at(17), |s| s.next[2] = 0);
    breaks(8, pooled_pop_at(16), |s| s.records[0].own = 1);
    breaks(8, pooled_pop_at(16), |s| s.marks[0] |= 1 << 2);
    breaks(8, pooled_pop_at(11), |s| s.marks[0] &= !(1 << 2));
    breaks(7, pooled_push_at(1), |s| s.marks[0] &= !(1 << 2));
    breaks(21, pooled_push_at(13), |s| s.marks[0] |= 1 << 2);
}

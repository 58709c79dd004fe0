//! A queue that keeps its free slots itself.

use zeppolecape::Answer::{Empty, NoFreeSlot, Popped, Pushed, Running};
use zeppolecape::{Queue, Refusal, Run, Side, POOLED_POP_STEPS, POOLED_PUSH_STEPS};

fn steps(queue: &mut Queue, task: usize, count: u64) {
    assert_eq!(queue.run(task, count).steps, count);
}

/// A label pushed at the right; `count` steps of it.
fn push(queue: &mut Queue, task: usize, label: u32, count: u64) {
    assert_eq!(queue.push_pooled(task, Side::Right, label), Ok(Running(12)));
    steps(queue, task, count);
}

#[test]
fn slots_come_and_go() {
    let mut queue = Queue::open_pooled(2, 1, 0).unwrap();
    push(&mut queue, 0, 700, 4);
    assert_eq!(queue.step(0), Ok(Pushed));
    assert_eq!(queue.waiting(), [(1, 700)]);
    queue.push_pooled(0, Side::Left, 701).unwrap();
    assert_eq!(queue.step(0), Ok(NoFreeSlot));
    assert_eq!(queue.step(0), Err(Refusal::Idle));
    queue.pop(1, Side::Left).unwrap();
    assert_eq!(queue.run(1, 3).outcome, Ok(Running(15)));
    assert!(!queue.is_taken(1)); // but not in the pool yet
    assert_eq!(queue.push_pooled(0, Side::Left, 701), Ok(Running(12)));
    assert_eq!(queue.step(0), Ok(NoFreeSlot));
    let popped = Run { outcome: Ok(Popped { slot: 1, label: 700 }), steps: 3 };
    assert_eq!(queue.run(1, POOLED_POP_STEPS), popped);
    assert_eq!(queue.control().head, 0x0000_0002_0000_0001);
    queue.pop(1, Side::Right).unwrap();
    assert_eq!(queue.finish(1), Ok(Empty));
}

#[test]
fn each_queue_has_its_push() {
    let mut pooled = Queue::open_pooled(1, 1, 0).unwrap();
    assert_eq!(pooled.push(0, Side::Left, 1, 0), Err(Refusal::WrongPush));
    assert_eq!(pooled.push(0, Side::Left, 9, 0), Err(Refusal::WrongPush));
    let mut named = Queue::open(1, 1, 0).unwrap();
    assert_eq!(named.push_pooled(0, Side::Left, 0), Err(Refusal::WrongPush));
    assert_eq!(Refusal::WrongPush.number(), 41);
}

#[test]
fn a_pool_renewed() {
    let mut queue = Queue::open_pooled(2, 3, 0).unwrap();
    for label in [10, 20, 30] {
        queue.push_pooled(0, Side::Right, label).unwrap();
        assert_eq!(queue.finish(0), Ok(Pushed));
    }
    queue.push_pooled(1, Side::Left, 40).unwrap();
    assert_eq!(queue.renew(0), Ok([None, Some(NoFreeSlot)].to_vec()));
    assert_eq!(queue.waiting(), [(1, 10), (2, 20), (3, 30)]);
    assert_eq!(queue.control().pooled, 1);
}

/// `tests/cases/solo_pooled_push_takes_21`: an old head, a push to help, its own.
#[test]
fn the_longest_push() {
    let mut queue = Queue::open_pooled(2, 3, 0).unwrap();
    push(&mut queue, 0, 11, 5);
    push(&mut queue, 1, 21, 1);
    push(&mut queue, 0, 12, 6);
    assert_eq!(queue.clone().run(1, POOLED_PUSH_STEPS - 1).outcome, Ok(Running(10)));
    assert_eq!(queue.finish(1), Ok(Pushed));
    assert_eq!(queue.waiting(), [(1, 11), (2, 12), (3, 21)]);
}

/// Document 02, #108, and 3 steps for each pair of tasks: there are 1, 3 and 120.
#[test]
fn stretches() {
    assert_eq!(zeppolecape::stretch(16), 416);
    assert_eq!([0, 1, 2, 3, 16].map(zeppolecape::pooled_stretch), [0, 20, 43, 69, 680]);
}

/// `tests/cases/solo_pooled_pop_takes_16`.
#[test]
fn the_longest_pop() {
    let mut queue = Queue::open_pooled(2, 3, 0).unwrap();
    push(&mut queue, 0, 11, 5);
    push(&mut queue, 0, 12, 6);
    queue.pop(1, Side::Right).unwrap();
    steps(&mut queue, 1, 1);
    steps(&mut queue, 0, 6);
    push(&mut queue, 0, 13, 6);
    let popped = Run { outcome: Ok(Popped { slot: 3, label: 13 }), steps: POOLED_POP_STEPS };
    assert_eq!(queue.run(1, u64::MAX), popped);
}

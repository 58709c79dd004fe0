//! A queue that threads share.

use std::collections::HashSet;
use std::thread;
use zeppolecape::Answer::{Empty, NoFreeSlot, Popped, Pushed, Running};
use zeppolecape::{Handle, Queue, Refusal, SharedQueue, Side, LAST_START_TAG};

fn draw(state: &mut u64, below: u64) -> u64 {
    *state ^= *state << 13;
    *state ^= *state >> 7;
    *state ^= *state << 17;
    (*state >> 16) % below
}

fn side(state: &mut u64) -> Side {
    [Side::Left, Side::Right][draw(state, 2) as usize]
}

/// Random calls; the labels that were pushed, and those popped.
fn work(handle: &mut Handle<'_>, thread: u32, calls: u32) -> (Vec<u32>, Vec<u32>) {
    let mut state = 0x9e37_79b9_7f4a_7c15 ^ u64::from(thread);
    let (mut pushed, mut popped) = (vec![], vec![]);
    for at in 0..calls {
        let end = side(&mut state);
        if draw(&mut state, 2) == 0 {
            match handle.pop(end).unwrap() {
                Popped { label, .. } => popped.push(label),
                other => assert_eq!(other, Empty),
            }
        } else {
            match handle.push(end, thread << 24 | at).unwrap() {
                Pushed => pushed.push(thread << 24 | at),
                other => assert_eq!(other, NoFreeSlot),
            }
        }
    }
    (pushed, popped)
}

#[test]
fn every_label_is_accounted_for() {
    for (threads, slots) in [(2, 1), (3, 2), (4, 100)] {
        let mut shared = SharedQueue::open_pooled(threads, slots, 0).unwrap();
        let lists: Vec<_> = thread::scope(|scope| {
            let team: Vec<_> = shared
                .handles()
                .enumerate()
                .map(|(thread, mut handle)| {
                    scope.spawn(move || work(&mut handle, thread as u32, 20_000))
                })
                .collect();
            team.into_iter().map(|member| member.join().unwrap()).collect()
        });
        let queue = shared.into_queue();
        let waiting = queue.waiting();
        assert_eq!(queue.report().waiting, waiting.len() as u64);
        assert_eq!(queue.report().taken, waiting.len() as u64);
        let pushed: HashSet<u32> = lists.iter().flat_map(|list| list.0.clone()).collect();
        let mut met: Vec<u32> = lists.iter().flat_map(|list| list.1.clone()).collect();
        met.extend(waiting.iter().map(|entry| entry.1));
        assert_eq!(met.len(), pushed.len(), "{threads} threads");
        assert_eq!(met.into_iter().collect::<HashSet<u32>>(), pushed, "{threads} threads");
    }
}

/// One thread steps all handles in any order: answers and tables are those of the plain steps.
#[test]
fn a_step_is_the_plain_step() {
    let mut state = 7;
    for turn in 0..40 {
        let (tasks, slots) = (1 + turn % 4, [1, 2, 3, 70][turn as usize % 4]);
        let open = |pooled: bool| match pooled {
            true => Queue::open_pooled(tasks, slots, 0),
            false => Queue::open(tasks, slots, 0),
        };
        let pooled = turn % 8 < 4;
        let mut plain = open(pooled).unwrap();
        let mut shared = SharedQueue::from(open(pooled).unwrap());
        let mut handles: Vec<_> = shared.handles().collect();
        for label in 0..3_000 {
            let task = draw(&mut state, tasks) as usize;
            let (end, slot) = (side(&mut state), draw(&mut state, slots + 2));
            let handle = &mut handles[task];
            match draw(&mut state, 12) {
                0 => assert_eq!(handle.start_push(end, label), plain.push_pooled(task, end, label)),
                1 => assert_eq!(
                    handle.start_push_in(end, slot, label),
                    plain.push(task, end, slot, label)
                ),
                2 => assert_eq!(handle.start_pop(end), plain.pop(task, end)),
                _ => assert_eq!(handle.step(), plain.step(task)),
            }
            assert_eq!(handle.record(), &plain.records()[task]);
        }
        std::mem::forget(handles); // half done, as the plain calls are
        let queue = shared.into_queue();
        assert_eq!(queue.control(), plain.control());
        assert_eq!(queue.records(), plain.records());
        assert_eq!(queue.waiting(), plain.waiting());
        assert_eq!(queue.report(), plain.report());
    }
}

#[test]
fn a_dropped_handle_finishes_its_call() {
    let mut shared = SharedQueue::open_pooled(2, 3, 0).unwrap();
    let mut handles: Vec<_> = shared.handles().collect();
    assert_eq!(handles[0].push(Side::Right, 700), Ok(Pushed));
    assert_eq!(handles[0].start_push(Side::Left, 701), Ok(Running(12)));
    assert_eq!(handles[0].step(), Ok(Running(13)));
    assert_eq!(handles[0].push(Side::Left, 702), Err(Refusal::Busy));
    assert_eq!(handles[1].start_pop(Side::Right), Ok(Running(1)));
    drop(handles);
    assert_eq!(shared.unclaimed(0), Some(Pushed));
    assert!(matches!(shared.unclaimed(1), Some(Popped { label: 700 | 701, .. })));
    assert_eq!((shared.unclaimed(1), shared.unclaimed(9)), (None, None));
    assert_eq!(shared.into_queue().waiting().len(), 1);
}

#[test]
fn a_forgotten_handle_leaves_its_call() {
    let mut shared = SharedQueue::open(1, 3, 0).unwrap();
    let mut handles: Vec<_> = shared.handles().collect();
    assert_eq!(handles[0].push_in(Side::Left, 2, 700), Ok(Pushed));
    assert_eq!(handles[0].start_push_in(Side::Left, 3, 701), Ok(Running(1)));
    std::mem::forget(handles);
    let queue = shared.into_queue();
    assert_eq!(queue.report().busy, 1);
    let mut shared = SharedQueue::from(queue);
    assert_eq!(shared.handles().next().unwrap().finish(), Ok(Pushed));
    assert_eq!(shared.into_queue().waiting(), [(3, 701), (2, 700)]);
}

#[test]
fn refusals() {
    assert_eq!(SharedQueue::open(0, 1, 0).unwrap_err(), Refusal::BadTasks);
    assert_eq!(SharedQueue::open_pooled(1, 0, 0).unwrap_err(), Refusal::BadSlots);
    let mut shared = SharedQueue::open(1, 1, LAST_START_TAG as u32).unwrap();
    let mut handle = shared.handles().next().unwrap();
    assert_eq!(handle.step(), Err(Refusal::Idle));
    assert_eq!(handle.push(Side::Left, 1), Err(Refusal::WrongPush));
    assert_eq!(handle.push_in(Side::Left, 2, 1), Err(Refusal::BadSlot));
    assert_eq!(handle.push_in(Side::Left, 1, 1), Ok(Pushed));
    assert_eq!(handle.push_in(Side::Left, 1, 1), Err(Refusal::Taken)); // 32 stands before 33
    assert_eq!(handle.pop(Side::Left), Err(Refusal::Worn));
    drop(handle);
    let mut queue = shared.into_queue();
    queue.renew(0).unwrap();
    let mut shared = SharedQueue::from(queue);
    assert_eq!(shared.handles().next().unwrap().pop(Side::Left), Ok(Popped { slot: 1, label: 1 }));
}

/// A handle goes to the thread that uses it.
#[test]
fn handles_are_sent() {
    fn sent<T: Send>() {}
    sent::<Handle<'_>>();
}

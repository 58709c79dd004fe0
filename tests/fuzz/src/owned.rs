//! A list of calls on what owns its tables: the crate's `Queue`, the same shared by `Handle`s of one
//! thread, and `Shelves`, beside the second program's tables.

use crate::bytes::Bytes;
use crate::ours::{answered, by_library, by_reference, control, moved, record, Told};
use reference::contents;
use reference::shelf::{self, Rack};
use reference::tables::Storage;
use std::mem;
use zeppolecape::{Handle, Queue, Refusal, SharedQueue, Shelves, Side, POOLED_PUSH_STEPS};

type Answer = Told<(u32, u32, u64)>;

struct Pair {
    ours: Queue,
    theirs: Storage,
    shelves: Shelves,
    rack: Rack,
}

pub fn compare(input: &[u8]) {
    let mut bytes = Bytes::of(input);
    let (tasks, slots, pooled) =
        (bytes.near(16), bytes.pick(&[1, 2, 3, 5, 64, 0, 1_024]), bytes.below(2) == 1);
    let tag = bytes.pick(&[0, 1, 4_294_967_255, 4_294_967_262, u32::MAX]);
    let opened =
        if pooled { Queue::open_pooled(tasks, slots, tag) } else { Queue::open(tasks, slots, tag) };
    let mut theirs = Storage::fitting(tasks.min(16), slots.min(1_023));
    let expected = match pooled {
        true => theirs.lend().open_pooled(tasks, slots, tag),
        false => theirs.lend().open(tasks, slots, tag),
    };
    assert_eq!(
        by_library(opened.as_ref().map(|_| ()).map_err(|refusal| *refusal)),
        by_reference(expected)
    );
    let Ok(ours) = opened else { return };
    let (room, rows) = (bytes.pick(&[tasks, 16, 1]), bytes.pick(&[slots, 1_023, 1]));
    let mut pair =
        Pair { ours, theirs, shelves: Shelves::new(room, rows), rack: Rack::fitting(room, rows) };
    while !bytes.is_empty() {
        pair.call(&mut bytes);
        pair.check();
    }
}

fn side(bytes: &mut Bytes) -> Side {
    bytes.pick(&[Side::Left, Side::Right])
}

impl Pair {
    fn call(&mut self, bytes: &mut Bytes) {
        let (ours, what) = (&mut self.ours, bytes.byte());
        let task = usize::from(what >> 4) % (ours.control().tasks as usize + 1);
        match what & 15 {
            0..=7 => self.plain(bytes, what & 15, task),
            8 => self.renew(bytes),
            9 => self.save(bytes.near(7)),
            10 => self.return_to(bytes.near(7)),
            11 => self.orders(),
            12 => self.look(bytes),
            _ => self.shared(bytes),
        }
    }

    /// A start, a step or some of them.
    fn plain(&mut self, bytes: &mut Bytes, what: u8, task: usize) {
        let (end, number) = (side(bytes), task as u64);
        let (ours, mut lent) = (&mut self.ours, self.theirs.lend());
        let (told, expected): (Answer, Answer) = match what {
            0 => {
                let (slot, label) = (bytes.near(lent.shared.control.slots), bytes.label());
                let expected = lent.push(number, end as u64, slot, label).map(|()| (1, 0, 1));
                (
                    by_library(ours.push(task, end, slot, label)).map(answered),
                    by_reference(expected),
                )
            }
            1 => {
                let label = bytes.label();
                let expected = lent.push_pooled(number, end as u64, label).map(|()| (1, 0, 12));
                (
                    by_library(ours.push_pooled(task, end, label)).map(answered),
                    by_reference(expected),
                )
            }
            2 => {
                let expected = lent.pop(number, end as u64).map(|()| (1, 0, 1));
                (by_library(ours.pop(task, end)).map(answered), by_reference(expected))
            }
            3 => {
                let expected = lent.run(number, POOLED_PUSH_STEPS).0.map(moved);
                (by_library(ours.finish(task)).map(answered), by_reference(expected))
            }
            4 => {
                let most = bytes.near(25).min(100);
                let (expected, steps) = lent.run(number, most);
                let told = ours.run(task, most);
                assert_eq!(told.steps, steps, "steps of a run");
                (by_library(told.outcome).map(answered), by_reference(expected.map(moved)))
            }
            _ => (
                by_library(ours.step(task)).map(answered),
                by_reference(lent.step(number).map(moved)),
            ),
        };
        assert_eq!(told, expected, "call {what} of task {task}");
    }

    /// "Steps every busy task to its answer, opens again, and pushes the labels that wait again."
    fn renew(&mut self, bytes: &mut Bytes) {
        let tag = bytes.pick(&[0, 9, 4_294_967_200, 4_294_967_262]);
        let (before, tasks) = (self.theirs.clone(), self.theirs.control.tasks);
        let told = by_library(self.ours.renew(tag));
        let slots = self.theirs.control.slots;
        if u64::from(tag) + 2 * slots > 4_294_967_262 {
            assert_eq!(told, Err(33), "too few tags");
            assert_eq!(self.theirs, before);
            return;
        }
        let mut answers = Vec::new();
        for task in 0..tasks {
            let busy = self.theirs.records[task as usize].place != 0;
            let answer = busy.then(|| self.theirs.lend().run(task, 100).0.expect("a sound queue"));
            answers.push(answer.map(moved));
        }
        let told = told.expect("tags enough").into_iter().map(|answer| answer.map(answered));
        assert_eq!(told.collect::<Vec<_>>(), answers, "answers of a renewal");
        let labels: Vec<u32> = self.ours.waiting().iter().map(|entry| entry.1).collect();
        let wait = contents::waiting(&self.theirs.lend().shared).expect("a sound queue");
        assert_eq!(
            labels,
            wait.iter().map(|entry| entry.label).collect::<Vec<_>>(),
            "labels renewed"
        );
        self.refill(tag, &labels);
    }

    /// The second program's side of a renewal.
    fn refill(&mut self, tag: u32, labels: &[u32]) {
        let (tasks, slots) = (self.theirs.control.tasks, self.theirs.control.slots);
        let pooled = self.theirs.lend().shared.is_pooled();
        let mut lent = self.theirs.lend();
        match pooled {
            true => lent.open_pooled(tasks, slots, tag).expect("long enough"),
            false => lent.open(tasks, slots, tag).expect("long enough"),
        }
        for (slot, &label) in (1..).zip(labels) {
            match pooled {
                true => lent.push_pooled(0, 1, label).expect("a slot for each"),
                false => lent.push(0, 1, slot, label).expect("a slot for each"),
            }
            lent.run(0, 100).0.expect("a sound queue");
        }
    }

    fn save(&mut self, shelf: u64) {
        let told = by_library(self.ours.save(&mut self.shelves, shelf));
        assert_eq!(told, by_reference(shelf::save(&self.theirs.lend(), &mut self.rack, shelf)));
    }

    fn return_to(&mut self, shelf: u64) {
        let told = by_library(self.ours.return_to(&self.shelves, shelf));
        let mut theirs = mem::replace(&mut self.theirs, Storage::fitting(1, 1));
        let expected = by_reference(shelf::put_back(&mut theirs.lend(), &mut self.rack, shelf));
        self.theirs = theirs;
        assert_eq!(told, expected, "a return to shelf {shelf}");
    }

    /// The first three orders of two half-done calls.
    fn orders(&mut self) {
        let told =
            by_library(self.ours.schedules()).map(|orders| orders.take(3).collect::<Vec<_>>());
        let expected = by_reference(reference::schedules::admit(&mut self.theirs, 49)).map(|()| {
            let mut found = Vec::new();
            reference::schedules::every(&self.theirs, &mut |schedule| {
                found.push(schedule.tasks.clone());
                found.len() < 3
            });
            found
        });
        let tasks =
            |order: &zeppolecape::Schedule| order.tasks.iter().map(|&task| task as u64).collect();
        let told: Told<Vec<Vec<u64>>> = told.map(|orders| orders.iter().map(tasks).collect());
        assert_eq!(told, expected, "orders");
    }

    /// What only looks: positions, a free slot, marks.
    fn look(&mut self, bytes: &mut Bytes) {
        let asked = bytes.list(33, Bytes::label);
        let lent = self.theirs.lend().shared;
        let expected = lent.find(&asked).map(|found| (found.rows, found.positions));
        let told = by_library(self.ours.find(&asked)).map(|found| (found.rows, found.positions));
        assert_eq!(told, by_reference(expected), "positions");
        let slots = lent.control.slots;
        let marks: Vec<bool> = (1..=slots).map(|slot| lent.is_marked(slot)).collect();
        assert_eq!((1..=slots).map(|slot| self.ours.is_taken(slot)).collect::<Vec<_>>(), marks);
        match self.ours.free_slot() {
            Some(slot) => assert!(!marks[slot as usize - 1], "slot {slot} is taken"),
            None => assert!(marks.iter().all(|taken| *taken), "a slot is free"),
        }
    }

    /// Some calls by handles, all in this thread; then the queue is at rest again, half-done calls too.
    fn shared(&mut self, bytes: &mut Bytes) {
        let ours = mem::replace(&mut self.ours, Queue::open(1, 1, 0).expect("within the limits"));
        let mut shared = SharedQueue::from(ours);
        let mut handles: Vec<Handle<'_>> = shared.handles().collect();
        for _ in 0..bytes.below(24) {
            let task = bytes.below(handles.len() as u64) as usize;
            handled(bytes, &mut handles[task], &mut self.theirs, task as u64);
        }
        handles.into_iter().for_each(mem::forget);
        self.ours = shared.into_queue();
    }

    /// Everything that the queue shows.
    fn check(&mut self) {
        let (ours, theirs) = (&self.ours, &mut self.theirs);
        assert_eq!(*ours.control(), control(&theirs.control), "control");
        let tasks = theirs.control.tasks as usize;
        let records: Vec<_> = theirs.records[..tasks].iter().map(record).collect();
        assert_eq!(ours.records(), records, "records");
        let lent = theirs.lend();
        let wait = contents::waiting(&lent.shared).expect("a sound queue");
        let wait: Vec<_> = wait.iter().map(|entry| (entry.slot, entry.label)).collect();
        assert_eq!(ours.waiting(), wait, "labels waiting");
        let (told, expected) = (ours.report(), lent.report().expect("a sound queue"));
        assert_eq!(
            (told.busy, told.waiting, told.taken),
            (expected.busy, expected.waiting, expected.taken)
        );
        assert_eq!(told.retries, expected.retries, "retries");
    }
}

/// A call of a handle, and the same as start and steps.
fn handled(bytes: &mut Bytes, handle: &mut Handle<'_>, theirs: &mut Storage, task: u64) {
    let (what, end, label) = (bytes.below(6), side(bytes), bytes.label());
    let slot = bytes.near(theirs.control.slots);
    let mut lent = theirs.lend();
    let started = |answer: Result<(), reference::refusal::Refusal>, place| {
        by_reference(answer).map(|()| (1, 0, place))
    };
    let (told, expected): (Result<_, Refusal>, Answer) = match what {
        0 => {
            (handle.start_push(end, label), started(lent.push_pooled(task, end as u64, label), 12))
        }
        1 => (
            handle.start_push_in(end, slot, label),
            started(lent.push(task, end as u64, slot, label), 1),
        ),
        2 => (handle.start_pop(end), started(lent.pop(task, end as u64), 1)),
        3 => {
            let mut expected = started(lent.pop(task, end as u64), 1);
            while let Ok((1, ..)) = expected {
                expected = by_reference(lent.step(task)).map(moved);
            }
            (handle.pop(end), expected)
        }
        _ => (handle.step(), by_reference(lent.step(task)).map(moved)),
    };
    assert_eq!(by_library(told).map(answered), expected, "call {what} of handle {task}");
    assert_eq!(*handle.record(), record(&theirs.records[task as usize]), "the handle's record");
}

//! The queue that threads share.

use crate::cells::{Apart, Cells};
use crate::numbers::outcome;
use crate::raw::{self, Onward, Start, Touch};
use crate::{Answer, Control, Queue, Record, Refusal, Side};
use alloc::vec::Vec;
use core::cell::Cell;
use core::hint::spin_loop;
use core::marker::PhantomData;
use core::slice::IterMut;
use core::sync::atomic::{AtomicU32, AtomicU64};

/// A queue that threads share without a lock: wherever one is stopped, for ever too, the others go on.
///
/// Each thread has a [`Handle`]. While there are handles the queue is theirs; at rest, once they are
/// dropped, [`into_queue`](SharedQueue::into_queue) gives a [`Queue`] for all other calls, and
/// [`From`] shares it again.
///
/// ```
/// use std::thread;
/// use zeppolecape::{Answer, SharedQueue, Side};
///
/// let mut shared = SharedQueue::open_pooled(2, 3, 0)?;
/// let mut handles = shared.handles();
/// let (mut scale, mut head) = (handles.next().unwrap(), handles.next().unwrap());
/// thread::scope(|threads| {
///     threads.spawn(move || scale.push(Side::Right, 700));
///     threads.spawn(move || while head.pop(Side::Left) == Ok(Answer::Empty) {});
/// });
/// assert_eq!(shared.into_queue().waiting(), []);
/// # Ok::<(), zeppolecape::Refusal>(())
/// ```
///
/// Every word of the tables is an atomic, and every access to one is sequentially consistent but for
/// labels: no two threads ever touch one at a time. What a step does with shared memory and what comes
/// of it are proved calls; the touch between them is made here. That this is linearizable, down to
/// single instructions, is proved; the crate is not.
///
/// Refusal 33, [`Refusal::Worn`], comes with first tag 0 after 4,294,967,262 changes of Anchor, two or three for each
/// push with its pop: threads that do nothing else make them within minutes. Then `into_queue`,
/// [`Queue::renew`], and share it again.
#[derive(Debug)]
pub struct SharedQueue {
    cells: Cells,
    seats: Vec<Seat>,
}

/// What belongs to one task, in cache lines of its own.
#[derive(Debug)]
#[repr(align(128))]
struct Seat {
    record: Record,
    touch: Touch,
    unclaimed: Option<Answer>,
}

impl SharedQueue {
    /// An empty queue for handles 0 to `tasks` - 1 and slots 1 to `slots`, which its pushes name;
    /// `first_tag` is any number. Refuses 10, 11.
    pub fn open(tasks: u64, slots: u64, first_tag: u32) -> Result<SharedQueue, Refusal> {
        Queue::open(tasks, slots, first_tag).map(SharedQueue::from)
    }

    /// The same with all slots in a pool, from which its pushes take them. Refuses 10, 11.
    pub fn open_pooled(tasks: u64, slots: u64, first_tag: u32) -> Result<SharedQueue, Refusal> {
        Queue::open_pooled(tasks, slots, first_tag).map(SharedQueue::from)
    }

    /// A handle for each task, in their order. A call that was left half done, by a handle that was
    /// forgotten or before the queue was shared, goes on in its task's handle.
    pub fn handles(&mut self) -> Handles<'_> {
        Handles { cells: &self.cells, seats: self.seats.iter_mut() }
    }

    /// What a task's handle was answered when it was dropped in the middle of a call. It is told
    /// once, and kept until another handle of the task is dropped so; a popped label is nowhere else.
    pub fn unclaimed(&mut self, task: usize) -> Option<Answer> {
        self.seats.get_mut(task)?.unclaimed.take()
    }

    /// The queue at rest, for all other calls. What [`unclaimed`](Self::unclaimed) was not asked for is lost.
    pub fn into_queue(self) -> Queue {
        let SharedQueue { cells, seats } = self;
        let words = |cells: Vec<AtomicU64>| cells.into_iter().map(AtomicU64::into_inner).collect();
        let control = Control {
            tasks: seats.len() as u64,
            slots: cells.slots,
            anchor: cells.anchor.0.into_inner(),
            pooled: cells.pooled,
            head: cells.head.0.into_inner(),
        };
        Queue {
            control,
            records: seats.into_iter().map(|seat| seat.record).collect(),
            lefts: words(cells.lefts),
            rights: words(cells.rights),
            labels: cells.labels.into_iter().map(AtomicU32::into_inner).collect(),
            marks: words(cells.marks),
            next: words(cells.next),
        }
    }
}

impl From<Queue> for SharedQueue {
    fn from(queue: Queue) -> SharedQueue {
        let Queue { control, mut records, lefts, rights, labels, marks, next } = queue;
        let words = |words: Vec<u64>| words.into_iter().map(AtomicU64::new).collect();
        let cells = Cells {
            anchor: Apart(AtomicU64::new(control.anchor)),
            head: Apart(AtomicU64::new(control.head)),
            slots: control.slots,
            pooled: control.pooled,
            lefts: words(lefts),
            rights: words(rights),
            labels: labels.into_iter().map(AtomicU32::new).collect(),
            marks: words(marks),
            next: words(next),
        };
        records.truncate(control.tasks as usize);
        let seat = |record| Seat { touch: cells.planned(&record), record, unclaimed: None };
        let seats = records.into_iter().map(seat).collect();
        SharedQueue { cells, seats }
    }
}

/// The handles of a [`SharedQueue`], one for each task.
#[derive(Debug)]
pub struct Handles<'a> {
    cells: &'a Cells,
    seats: IterMut<'a, Seat>,
}

impl<'a> Iterator for Handles<'a> {
    type Item = Handle<'a>;

    fn next(&mut self) -> Option<Handle<'a>> {
        let seat = self.seats.next()?;
        Some(Handle { cells: self.cells, seat, one_thread: PhantomData })
    }
}

/// A task of a [`SharedQueue`], for one thread: it can be sent to another, and not shared.
///
/// [`push`](Handle::push) and [`pop`](Handle::pop) go to their answer. For a thread that interleaves
/// its calls with other work there are starts and [`step`](Handle::step). A handle that is dropped in
/// the middle of a call finishes it ([`SharedQueue::unclaimed`]).
///
/// ```compile_fail
/// fn shared_by_threads<T: Sync>() {}
/// shared_by_threads::<zeppolecape::Handle<'_>>();
/// ```
#[derive(Debug)]
pub struct Handle<'a> {
    cells: &'a Cells,
    seat: &'a mut Seat,
    one_thread: PhantomData<Cell<()>>,
}

impl Handle<'_> {
    /// Pushes `label` in a slot of the pool: pushed, or no free slot. Refuses 41, 30, 33.
    pub fn push(&mut self, side: Side, label: u32) -> Result<Answer, Refusal> {
        self.whole(raw::ASK_PUSH_POOLED, side, 0, label)
    }

    /// Pushes `label` in a free slot, in a queue whose pushes name them. Refuses 41, 15, 30, 32, 33.
    pub fn push_in(&mut self, side: Side, slot: u64, label: u32) -> Result<Answer, Refusal> {
        self.whole(raw::ASK_PUSH, side, slot, label)
    }

    /// Pops: popped, or empty. Refuses 30, 33.
    pub fn pop(&mut self, side: Side) -> Result<Answer, Refusal> {
        self.whole(raw::ASK_POP, side, 0, 0)
    }

    /// Starts a push in a slot of the pool. Refuses 41, 30, 33.
    pub fn start_push(&mut self, side: Side, label: u32) -> Result<Answer, Refusal> {
        self.start(raw::ASK_PUSH_POOLED, side, 0, label)
    }

    /// Starts a push in a slot that is named. Refuses 41, 15, 30, 32, 33.
    pub fn start_push_in(&mut self, side: Side, slot: u64, label: u32) -> Result<Answer, Refusal> {
        self.start(raw::ASK_PUSH, side, slot, label)
    }

    /// Starts a pop. Refuses 30, 33.
    pub fn start_pop(&mut self, side: Side) -> Result<Answer, Refusal> {
        self.start(raw::ASK_POP, side, 0, 0)
    }

    /// Makes one step of the call that was started: one touch of shared memory. Refuses 31.
    pub fn step(&mut self) -> Result<Answer, Refusal> {
        let found = self.cells.made(&self.seat.touch);
        let Onward { reply, touch } = self.cells.settled(&mut self.seat.record, found);
        self.seat.touch = touch;
        outcome(reply)
    }

    /// Steps the call that was started to its answer. Refuses 31.
    pub fn finish(&mut self) -> Result<Answer, Refusal> {
        match self.step()? {
            Answer::Running(_) => self.ends(self.cells.made(&self.seat.touch)),
            answer => Ok(answer),
        }
    }

    /// The record: where the task stands in its call, and its count of retries.
    pub fn record(&self) -> &Record {
        &self.seat.record
    }

    fn start(
        &mut self,
        operation: u64,
        side: Side,
        slot: u64,
        label: u32,
    ) -> Result<Answer, Refusal> {
        let start = Start { operation, side: side as u64, slot, label: u64::from(label) };
        let Onward { reply, touch } = self.cells.begun(&mut self.seat.record, &start);
        if reply.code == raw::RUNNING {
            self.seat.touch = touch;
        }
        outcome(reply)
    }

    /// Starts a call and steps it to its answer.
    fn whole(
        &mut self,
        operation: u64,
        side: Side,
        slot: u64,
        label: u32,
    ) -> Result<Answer, Refusal> {
        let start = Start { operation, side: side as u64, slot, label: u64::from(label) };
        let begun = self.cells.begun(&mut self.seat.record, &start);
        if begun.reply.code != raw::RUNNING {
            return outcome(begun.reply);
        }
        let found = self.cells.made(&begun.touch);
        self.ends(found)
    }

    /// The same from the word that the touch before found, after a start or a step: these leave a sound
    /// record. Each settlement has a place of its own, from which its touch is made: one kept across
    /// turns would be copied, by loads over stores just made.
    fn ends(&mut self, mut found: u64) -> Result<Answer, Refusal> {
        let mut failed = self.seat.record.retries;
        loop {
            let onward = self.cells.settled_unasked(&mut self.seat.record, found);
            if onward.reply.code != raw::RUNNING {
                self.seat.touch = onward.touch;
                return outcome(onward.reply);
            }
            if self.seat.record.retries != failed {
                failed = self.seat.record.retries;
                back_off();
            }
            found = self.cells.made(&onward.touch);
        }
    }
}

/// Some microseconds once a change has failed: whoever was faster then makes several calls with the
/// words in its own cache. It is no wait for anybody: it ends by itself.
fn back_off() {
    for _ in 0..256 {
        spin_loop();
    }
}

impl Drop for Handle<'_> {
    fn drop(&mut self) {
        if self.seat.record.place != 0 {
            self.seat.unclaimed = self.finish().ok();
        }
    }
}

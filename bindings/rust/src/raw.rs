//! The C declarations: the calls, layouts and numbers of `zeppolecape.h`, which says what each call
//! does, refuses and asks of its caller.
//!
//! # Safety
//! For every call: pointers are aligned and good for their counts of elements (with count 0 null will
//! do), controls and `one` are not null, nothing that is written overlaps anything else that is lent,
//! and nobody else uses it during the call. Everything else is checked by the call.

mod calls;
mod touch;
mod waiting;

pub use calls::*;
pub use touch::*;
pub use waiting::*;

/// Side left.
pub const LEFT: u64 = 0;
/// Side right.
pub const RIGHT: u64 = 1;
/// Kind of a call, in a record: a push.
pub const PUSH: u64 = 0;
/// Kind of a call, in a record: a pop.
pub const POP: u64 = 1;
/// Status of Anchor: no push is unfinished.
pub const STABLE: u64 = 0;
/// Status of Anchor: the last push at the right may lack its link back.
pub const RPUSH: u64 = 1;
/// Status of Anchor: the last push at the left may lack its link back.
pub const LPUSH: u64 = 2;
/// Code of a reply: the call goes on, value is the place of its next step.
pub const RUNNING: u32 = 1;
/// Code of a reply: the push is answered.
pub const PUSHED: u32 = 2;
/// Code of a reply: the pop is answered, nothing was waiting.
pub const EMPTY: u32 = 3;
/// Code of a reply: the pop is answered, value is the slot.
pub const POPPED: u32 = 4;
/// Code of a reply: a pooled push is answered, every slot was in use.
pub const NO_FREE_SLOT: u32 = 5;

/// Ending of a schedule: both calls are answered.
pub const BOTH_ANSWERED: u64 = 0;
/// Ending of a schedule: a call is unanswered after 48 steps.
pub const CUT: u64 = 1;
/// Ending of a schedule: its last step is refused 34.
pub const STOPPED: u64 = 2;
/// In place of an ending: the last schedule was handed out before.
pub const NO_MORE: u64 = 3;

/// Operation of a request: a push in a named slot.
pub const ASK_PUSH: u64 = 0;
/// Operation of a request: a pop.
pub const ASK_POP: u64 = 1;
/// Operation of a request: a push in a slot of the pool.
pub const ASK_PUSH_POOLED: u64 = 2;
/// Operation of a request: a step, as is any other number.
pub const ASK_STEP: u64 = 3;

/// What [`zc_serve`] answers.
#[repr(C)]
#[derive(Clone, Copy, Debug, Default, PartialEq, Eq)]
pub struct ServeReply {
    /// 0, or the number by which the opening is refused.
    pub code: u64,
    /// Requests carried out; 0 with a refusal.
    pub served: u64,
}

/// What [`zc_next_schedule`] answers.
#[repr(C)]
#[derive(Clone, Copy, Debug, Default, PartialEq, Eq)]
pub struct ScheduleReply {
    /// 0, or the number of a refusal; the rest is then 0.
    pub code: u64,
    /// An ending, or [`NO_MORE`].
    pub ending: u64,
    /// The steps of the schedule; 0 with [`NO_MORE`].
    pub length: u64,
}

/// What all tasks share besides the tables.
#[repr(C)]
#[derive(Clone, Copy, Debug, Default, PartialEq, Eq)]
pub struct Control {
    /// Tasks, 1 to 16, numbered from 0.
    pub tasks: u64,
    /// Slots, 1 to 1,023, numbered from 1.
    pub slots: u64,
    /// Taken apart by [`Anchor::of`](crate::Anchor::of).
    pub anchor: u64,
    /// 1 if opened with the slots in a pool, else 0.
    pub pooled: u64,
    /// The free slot on top of the pool, laid out like a link word; slot 0: none.
    pub head: u64,
}

/// Where a task stands in its call, and its count of retries. A start writes every field but the count,
/// and an answer zeroes every field but the count: a task is idle where its place is 0.
#[repr(C)]
#[derive(Clone, Copy, Debug, Default, PartialEq, Eq)]
pub struct Record {
    /// 0 idle, or the place of the next step, 1 to 11, in a pooled queue to 17.
    pub place: u64,
    /// 0 push, 1 pop.
    pub kind: u64,
    /// 0 left, 1 right.
    pub side: u64,
    /// The slot of a push, or that a pop gives back.
    pub own: u64,
    /// Its label.
    pub label: u32,
    /// The Anchor word as read.
    pub seen: u64,
    /// The neighbour slot as read; at 14 the next of the slot on top of the pool.
    pub neighbour: u64,
    /// The link word as read; at 13 to 17 the pool's head.
    pub link: u64,
    /// 1 once a push has taken effect and still has a link to mend.
    pub finishing: u64,
    /// This task's changes that failed because another was faster: each adds one below
    /// [`MOST_RETRIES`](crate::MOST_RETRIES); an opening zeroes it, a return to a shelf
    /// puts the saved count back.
    pub retries: u64,
}

/// What a start or a step answers.
#[repr(C)]
#[derive(Clone, Copy, Debug, Default, PartialEq, Eq)]
pub struct Reply {
    /// [`RUNNING`], [`PUSHED`], [`EMPTY`], [`POPPED`], [`NO_FREE_SLOT`], or the number of a refusal.
    pub code: u32,
    /// Popped: the label.
    pub label: u32,
    /// Running: the next place; popped: the slot.
    pub value: u64,
}

/// As [`Reply`], and the steps made; a refused step is none.
#[repr(C)]
#[derive(Clone, Copy, Debug, Default, PartialEq, Eq)]
pub struct RunReply {
    /// The last step's, or [`RUNNING`] if no step was left to make.
    pub code: u32,
    /// Popped: the label.
    pub label: u32,
    /// Running: the place; popped: the slot.
    pub value: u64,
    /// The steps made.
    pub steps: u64,
}

/// What the report tells. With a refusal every field but code is 0.
#[repr(C)]
#[derive(Clone, Copy, Debug, Default, PartialEq, Eq)]
pub struct ReportReply {
    /// 0, or the number of a refusal.
    pub code: u64,
    /// Anchor's tag.
    pub tag: u64,
    /// Anchor's status.
    pub status: u64,
    /// Anchor's left end.
    pub left: u64,
    /// Anchor's right end.
    pub right: u64,
    /// Tasks with a call under way.
    pub busy: u64,
    /// Labels in the queue.
    pub waiting: u64,
    /// Marks set for slots 1 to slots, half-done calls included.
    pub taken: u64,
    /// The retries of each record, in task order; 0 beyond the tasks.
    pub retries: [u64; crate::MOST_TASKS as usize],
}

/// Where labels wait. With a refusal every field but code is 0.
#[repr(C)]
#[derive(Clone, Copy, Debug, Default, PartialEq, Eq)]
pub struct FindReply {
    /// 0, or the number of a refusal.
    pub code: u64,
    /// Rows read: the labels in the queue.
    pub rows: u64,
    /// Of each label asked for, from 1 at the left; 0 not waiting, or not asked for.
    pub positions: [u64; crate::MOST_ASKED],
}

/// What an audit answers.
#[repr(C)]
#[derive(Clone, Copy, Debug, Default, PartialEq, Eq)]
pub struct Verdict {
    /// 0 passes, 1 fails, or the number of a refusal.
    pub code: u32,
    /// Fails: the first wrong position, from 1; 0 if the order is no rearrangement.
    pub position: u32,
}

/// What an order sheet is answered: kept, or the first broken pair by its places in the list.
#[repr(C)]
#[derive(Clone, Copy, Debug, Default, PartialEq, Eq)]
pub struct SheetReply {
    /// 0, or the number of a refusal.
    pub code: u64,
    /// The first place of the pair, from 1; 0 if the sheet is kept.
    pub first: u64,
    /// The second place of the pair, from 1; 0 if the sheet is kept.
    pub second: u64,
}

const _: () = {
    use core::mem::{align_of, offset_of, size_of};
    assert!(size_of::<Control>() == 40 && align_of::<Control>() == 8);
    assert!(offset_of!(Control, tasks) == 0 && offset_of!(Control, slots) == 8);
    assert!(offset_of!(Control, anchor) == 16 && offset_of!(Control, pooled) == 24);
    assert!(offset_of!(Control, head) == 32);
    assert!(size_of::<Record>() == 80 && align_of::<Record>() == 8);
    assert!(offset_of!(Record, place) == 0 && offset_of!(Record, kind) == 8);
    assert!(offset_of!(Record, side) == 16 && offset_of!(Record, own) == 24);
    assert!(offset_of!(Record, label) == 32 && offset_of!(Record, seen) == 40);
    assert!(offset_of!(Record, neighbour) == 48 && offset_of!(Record, link) == 56);
    assert!(offset_of!(Record, finishing) == 64 && offset_of!(Record, retries) == 72);
    assert!(size_of::<Reply>() == 16 && align_of::<Reply>() == 8);
    assert!(offset_of!(Reply, code) == 0 && offset_of!(Reply, label) == 4);
    assert!(offset_of!(Reply, value) == 8);
    assert!(size_of::<RunReply>() == 24 && align_of::<RunReply>() == 8);
    assert!(offset_of!(RunReply, code) == 0 && offset_of!(RunReply, label) == 4);
    assert!(offset_of!(RunReply, value) == 8 && offset_of!(RunReply, steps) == 16);
    assert!(size_of::<ReportReply>() == 192 && align_of::<ReportReply>() == 8);
    assert!(offset_of!(ReportReply, code) == 0 && offset_of!(ReportReply, tag) == 8);
    assert!(offset_of!(ReportReply, status) == 16 && offset_of!(ReportReply, left) == 24);
    assert!(offset_of!(ReportReply, right) == 32 && offset_of!(ReportReply, busy) == 40);
    assert!(offset_of!(ReportReply, waiting) == 48 && offset_of!(ReportReply, taken) == 56);
    assert!(offset_of!(ReportReply, retries) == 64);
    assert!(size_of::<FindReply>() == 272 && align_of::<FindReply>() == 8);
    assert!(offset_of!(FindReply, code) == 0 && offset_of!(FindReply, rows) == 8);
    assert!(offset_of!(FindReply, positions) == 16);
    assert!(size_of::<ServeReply>() == 16 && align_of::<ServeReply>() == 8);
    assert!(offset_of!(ServeReply, code) == 0 && offset_of!(ServeReply, served) == 8);
    assert!(size_of::<ScheduleReply>() == 24 && align_of::<ScheduleReply>() == 8);
    assert!(offset_of!(ScheduleReply, code) == 0 && offset_of!(ScheduleReply, ending) == 8);
    assert!(offset_of!(ScheduleReply, length) == 16);
    assert!(size_of::<SheetReply>() == 24 && align_of::<SheetReply>() == 8);
    assert!(offset_of!(SheetReply, code) == 0 && offset_of!(SheetReply, first) == 8);
    assert!(offset_of!(SheetReply, second) == 16);
};

//! Histories of finished calls, checked afterwards.

use crate::{raw, Refusal};

/// With more calls a history is refused [`Refusal::BadHistory`].
pub const MOST_CALLS: usize = 64;

/// A finished call of a history. An event is any number; a later event has a larger one.
#[repr(C)]
#[derive(Clone, Copy, Debug, Default, PartialEq, Eq)]
pub struct Finished {
    /// Any number; it is told, and decides nothing.
    pub task: u64,
    /// 0 push, 1 pop.
    pub kind: u64,
    /// 0 left, 1 right.
    pub side: u64,
    /// The label pushed or popped; unused with empty.
    pub label: u64,
    /// 2 pushed, 3 empty, 4 popped.
    pub answer: u64,
    /// The event of its start.
    pub start: u64,
    /// The event of its answer.
    pub end: u64,
}

/// What an audit finds.
#[derive(Clone, Copy, Debug, PartialEq, Eq)]
pub enum Verdict {
    /// The order is one in which the calls can have taken effect.
    Passes,
    /// The first position of the order, from 1, whose call has another answer or stands before a
    /// call that was answered before it started.
    Fails {
        /// From 1.
        position: u32,
    },
    /// The order does not name every call once.
    NoRearrangement,
}

/// Whether the calls, of a queue that was empty at first, can have taken effect in this order: a
/// list of their numbers, from 1. Refuses 40.
pub fn audit(calls: &[Finished], order: &[u64]) -> Result<Verdict, Refusal> {
    // SAFETY: a finished call is seven words without padding.
    let words = unsafe { core::slice::from_raw_parts(calls.as_ptr().cast(), 7 * calls.len()) };
    audit_words(words, order)
}

/// The same on words, seven a call in the order of [`Finished`]; a rest of fewer is no call.
pub fn audit_words(words: &[u64], order: &[u64]) -> Result<Verdict, Refusal> {
    // SAFETY: slices are non-null, aligned and as long as the counts that go with them.
    let verdict =
        unsafe { raw::zc_audit_words(words.as_ptr(), words.len(), order.as_ptr(), order.len()) };
    match (verdict.code, verdict.position) {
        (0, _) => Ok(Verdict::Passes),
        (1, 0) => Ok(Verdict::NoRearrangement),
        (1, position) => Ok(Verdict::Fails { position }),
        (number, _) => Err(Refusal::answered(u64::from(number))),
    }
}

const _: () = {
    use core::mem::{align_of, offset_of, size_of};
    assert!(size_of::<Finished>() == 56 && align_of::<Finished>() == 8);
    assert!(offset_of!(Finished, task) == 0 && offset_of!(Finished, kind) == 8);
    assert!(offset_of!(Finished, side) == 16 && offset_of!(Finished, label) == 24);
    assert!(offset_of!(Finished, answer) == 32 && offset_of!(Finished, start) == 40);
    assert!(offset_of!(Finished, end) == 48);
    assert!(size_of::<raw::Verdict>() == 8 && align_of::<raw::Verdict>() == 4);
    assert!(offset_of!(raw::Verdict, code) == 0 && offset_of!(raw::Verdict, position) == 4);
};

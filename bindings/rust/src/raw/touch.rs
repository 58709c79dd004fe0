//! A start or a step split at its touch of shared memory, as in `zeppolecape_atomic.h`.

use super::{Record, Reply};

/// What a start or a step does with shared memory.
#[repr(C)]
#[derive(Clone, Copy, Debug, Default, PartialEq, Eq)]
pub struct Touch {
    /// [`NO_TOUCH`] to [`LOAD_MARK`].
    pub act: u32,
    /// The label to store.
    pub label: u32,
    /// Of a link word: it leads to this side.
    pub side: u64,
    /// Whose link word, label, mark or next it is, 1 to slots.
    pub slot: u64,
    /// Of a change: the word as read.
    pub expected: u64,
    /// The word to store; [`PUT_LINK`]: the slot; [`NO_TOUCH`]: the refusal.
    pub word: u64,
}

/// None: it is refused.
pub const NO_TOUCH: u32 = 0;
/// Read Anchor.
pub const LOAD_ANCHOR: u32 = 1;
/// Change Anchor, only where it is as expected.
pub const SWAP_ANCHOR: u32 = 2;
/// Read a link word.
pub const LOAD_LINK: u32 = 3;
/// Change a link word.
pub const SWAP_LINK: u32 = 4;
/// Another slot in a sound link word, with the same tag.
pub const PUT_LINK: u32 = 5;
/// Read a label, then clear the mark.
pub const TAKE_LABEL: u32 = 6;
/// Read the head.
pub const LOAD_HEAD: u32 = 7;
/// Change the head.
pub const SWAP_HEAD: u32 = 8;
/// Change the head; where that is done store the label, then set the mark.
pub const DRAW_SLOT: u32 = 9;
/// Read a next.
pub const LOAD_NEXT: u32 = 10;
/// Store a next.
pub const STORE_NEXT: u32 = 11;
/// Of a start: set the mark; where it was clear store the label.
pub const TAKE_SLOT: u32 = 12;
/// Of a start: read a mark.
pub const LOAD_MARK: u32 = 13;

/// Code of a reply: a start has another touch to make.
pub const STARTING: u32 = 0;

/// What a start or a step answered, and what comes next with shared memory.
#[repr(C)]
#[derive(Clone, Copy, Debug, Default, PartialEq, Eq)]
pub struct Onward {
    /// [`STARTING`], or as the reply of a start or a step.
    pub reply: Reply,
    /// The next touch.
    pub touch: Touch,
}

/// A call to be started. A word that its operation has no use for is not looked at.
#[repr(C)]
#[derive(Clone, Copy, Debug, Default, PartialEq, Eq)]
pub struct Start {
    /// [`ASK_PUSH`](super::ASK_PUSH), [`ASK_POP`](super::ASK_POP); any other number is
    /// [`ASK_PUSH_POOLED`](super::ASK_PUSH_POOLED).
    pub operation: u64,
    /// The end.
    pub side: u64,
    /// Of [`ASK_PUSH`](super::ASK_PUSH).
    pub slot: u64,
    /// Of a push: its lower 32 bits.
    pub label: u64,
}

const _: () = {
    use core::mem::{offset_of, size_of};
    assert!(size_of::<Touch>() == 40 && offset_of!(Touch, act) == 0);
    assert!(offset_of!(Touch, label) == 4 && offset_of!(Touch, side) == 8);
    assert!(offset_of!(Touch, slot) == 16 && offset_of!(Touch, expected) == 24);
    assert!(offset_of!(Touch, word) == 32);
    assert!(size_of::<Onward>() == 56 && offset_of!(Onward, touch) == 16);
    assert!(size_of::<Start>() == 32 && offset_of!(Start, operation) == 0);
    assert!(offset_of!(Start, side) == 8 && offset_of!(Start, slot) == 16);
    assert!(offset_of!(Start, label) == 24);
};

#[link(name = "zeppolecape", kind = "static")]
unsafe extern "C" {
    /// What the next step of a record does; the refusal, 34 or 31, where it has none.
    pub fn zc_plan(slots: u64, pooled: u64, own: *const Record) -> Touch;

    /// Moves a record on whose touch has found a word, and plans its next step.
    /// Refuses: 34 for the record, 31, 34 for the word found.
    pub fn zc_settle_plan(slots: u64, pooled: u64, own: *mut Record, found: u64) -> Onward;

    /// The same for a record that nobody has written since a start or a settlement left it, which
    /// is not tested again. Refuses: 31, 34 for the place, 34 for the word found.
    pub fn zc_settle_unasked(slots: u64, pooled: u64, own: *mut Record, found: u64) -> Onward;

    /// The first touch of a start; none where it is refused: 14, 41, 15, 34 for the record, 30.
    pub fn zc_plan_start(slots: u64, pooled: u64, own: *const Record, start: *const Start)
        -> Touch;

    /// What a start comes to, once a touch of the kind `act` has found a word. Only after
    /// [`zc_plan_start`] has answered a touch. Refuses: 32, 33.
    pub fn zc_settle_start(
        slots: u64,
        pooled: u64,
        own: *mut Record,
        start: *const Start,
        act: u32,
        found: u64,
    ) -> Onward;

    /// Both in one call, for an Anchor that is loaded already. Refuses as they do.
    pub fn zc_start_loaded(
        slots: u64,
        pooled: u64,
        own: *mut Record,
        start: *const Start,
        anchor: u64,
    ) -> Onward;
}

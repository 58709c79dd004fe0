//! The labels waiting, in order.

use super::Control;

/// How many labels wait. With a refusal the count is 0.
#[repr(C)]
#[derive(Clone, Copy, Debug, Default, PartialEq, Eq)]
pub struct WaitingReply {
    /// 0, or the number of a refusal.
    pub code: u64,
    /// The labels written, which are all that wait.
    pub count: u64,
}

const _: () = {
    use core::mem::{align_of, offset_of, size_of};
    assert!(size_of::<WaitingReply>() == 16 && align_of::<WaitingReply>() == 8);
    assert!(offset_of!(WaitingReply, code) == 0 && offset_of!(WaitingReply, count) == 8);
};

#[link(name = "zeppolecape", kind = "static")]
unsafe extern "C" {
    /// Writes the labels waiting, from left to right, with their slots; entries beyond keep.
    /// Refuses: 34 for control, 12 (rows and marks only), 34 for the walk, 12 for a table that is
    /// too short for what waits.
    pub fn zc_waiting(
        control: *const Control,
        slots_out: *mut u64,
        slots_out_count: usize,
        labels_out: *mut u32,
        labels_out_count: usize,
        lefts: *const u64,
        left_count: usize,
        rights: *const u64,
        right_count: usize,
        labels: *const u32,
        label_count: usize,
        marks: *const u64,
        mark_count: usize,
    ) -> WaitingReply;
}

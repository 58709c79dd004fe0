//! Two lanes into one.

use crate::tables::{done, Shared};
use crate::{raw, Queue, Refusal, Tables};

fn join(first: Shared<'_>, second: Shared<'_>, third: &mut Tables<'_>) -> Result<(), Refusal> {
    // SAFETY: slices are non-null, aligned and as long as the counts that go with them; what is
    // written is lent by `&mut`, so it is no source's. The rest is checked by the library.
    let code = unsafe {
        raw::zc_join(
            first.control,
            first.records.as_ptr(),
            first.records.len(),
            second.control,
            second.records.as_ptr(),
            second.records.len(),
            third.control,
            third.records.as_mut_ptr(),
            third.records.len(),
            first.lefts.as_ptr(),
            first.lefts.len(),
            first.rights.as_ptr(),
            first.rights.len(),
            first.labels.as_ptr(),
            first.labels.len(),
            second.lefts.as_ptr(),
            second.lefts.len(),
            second.rights.as_ptr(),
            second.rights.len(),
            second.labels.as_ptr(),
            second.labels.len(),
            third.lefts.as_mut_ptr(),
            third.lefts.len(),
            third.rights.as_mut_ptr(),
            third.rights.len(),
            third.labels.as_mut_ptr(),
            third.labels.len(),
            third.marks.as_mut_ptr(),
            third.marks.len(),
        )
    };
    done(code)
}

impl Tables<'_> {
    /// Joins two queues at rest in this one, which is fresh. Refuses 34 for the controls, 12, 34 for
    /// the two walks, 47, 48, 33.
    pub fn join(&mut self, first: &Tables<'_>, second: &Tables<'_>) -> Result<(), Refusal> {
        join(first.shared(), second.shared(), self)
    }
}

impl Queue {
    /// Joins two queues at rest in this one, which is fresh: of the two leftmost labels remaining the
    /// smaller goes next, the first queue's on a tie, as if task 0 had pushed each at the right,
    /// alone. Both sources are only read, and may be the same. A queue that is not as it must be is
    /// refused [`Refusal::NotAtRest`], more labels than slots [`Refusal::Crowded`], a first tag too high
    /// for the pushes [`Refusal::Worn`]; nothing then changes.
    pub fn join(&mut self, first: &Queue, second: &Queue) -> Result<(), Refusal> {
        join(first.shared(), second.shared(), &mut self.lend())
    }
}

//! Eight shelves: a queue saved, and returned to.

use crate::tables::{done, Shared};
use crate::{
    mark_words, raw, rows, Control, Queue, Record, Refusal, Tables, MOST_SLOTS, MOST_TASKS,
};
use alloc::vec;
use alloc::vec::Vec;

/// The number of shelves, which are numbered from 0.
pub const SHELVES: usize = 8;

/// Lent shelves: any contents, any lengths. Each table is cut into eight equal parts, and shelf n is
/// part n; of controls there is one a shelf. Lend them with every entry zero at first.
#[derive(Debug)]
pub struct ShelfTables<'a> {
    /// One control for each shelf: eight.
    pub controls: &'a mut [Control],
    /// Eight times the records of a queue.
    pub records: &'a mut [Record],
    /// Eight times its Left link words.
    pub lefts: &'a mut [u64],
    /// Eight times its Right link words.
    pub rights: &'a mut [u64],
    /// Eight times its labels.
    pub labels: &'a mut [u32],
    /// Eight times its marks.
    pub marks: &'a mut [u64],
    /// Eight times the next table of a pooled queue; else it may be empty.
    pub next: &'a mut [u64],
}

/// Eight shelves that own their tables, none of them filled at first.
#[derive(Clone, Debug)]
pub struct Shelves {
    controls: [Control; SHELVES],
    records: Vec<Record>,
    lefts: Vec<u64>,
    rights: Vec<u64>,
    labels: Vec<u32>,
    marks: Vec<u64>,
    next: Vec<u64>,
}

impl Shelves {
    /// Shelves for queues, named or pooled, of at most so many tasks and slots.
    pub fn new(tasks: u64, slots: u64) -> Shelves {
        let (tasks, slots) = (tasks.min(MOST_TASKS), slots.min(MOST_SLOTS));
        let entries = SHELVES * rows(slots);
        Shelves {
            controls: [Control::default(); SHELVES],
            records: vec![Record::default(); SHELVES * tasks as usize],
            lefts: vec![0; entries],
            rights: vec![0; entries],
            labels: vec![0; entries],
            marks: vec![0; SHELVES * mark_words(slots)],
            next: vec![0; entries],
        }
    }

    fn lend(&mut self) -> ShelfTables<'_> {
        let Shelves { controls, records, lefts, rights, labels, marks, next } = self;
        ShelfTables { controls, records, lefts, rights, labels, marks, next }
    }

    fn look(&self) -> Look<'_> {
        let Shelves { controls, records, lefts, rights, labels, marks, next } = self;
        Look { controls, records, lefts, rights, labels, marks, next }
    }
}

/// The shelves as a return is lent them.
struct Look<'a> {
    controls: &'a [Control],
    records: &'a [Record],
    lefts: &'a [u64],
    rights: &'a [u64],
    labels: &'a [u32],
    marks: &'a [u64],
    next: &'a [u64],
}

fn save(queue: Shared<'_>, shelves: &mut ShelfTables<'_>, shelf: u64) -> Result<(), Refusal> {
    // SAFETY: slices are non-null, aligned and as long as the counts that go with them; the shelves
    // are lent by `&mut`, so they are apart from the queue. The rest is checked by the library.
    let code = unsafe {
        raw::zc_save(
            queue.control,
            queue.records.as_ptr(),
            queue.records.len(),
            shelves.controls.as_mut_ptr(),
            shelves.controls.len(),
            shelves.records.as_mut_ptr(),
            shelves.records.len(),
            shelf,
            queue.lefts.as_ptr(),
            queue.lefts.len(),
            queue.rights.as_ptr(),
            queue.rights.len(),
            queue.labels.as_ptr(),
            queue.labels.len(),
            queue.marks.as_ptr(),
            queue.marks.len(),
            queue.next.as_ptr(),
            queue.next.len(),
            shelves.lefts.as_mut_ptr(),
            shelves.lefts.len(),
            shelves.rights.as_mut_ptr(),
            shelves.rights.len(),
            shelves.labels.as_mut_ptr(),
            shelves.labels.len(),
            shelves.marks.as_mut_ptr(),
            shelves.marks.len(),
            shelves.next.as_mut_ptr(),
            shelves.next.len(),
        )
    };
    done(code)
}

fn return_to(queue: &mut Tables<'_>, shelves: Look<'_>, shelf: u64) -> Result<(), Refusal> {
    // SAFETY: as above, with the queue lent by `&mut`.
    let code = unsafe {
        raw::zc_return(
            queue.control,
            queue.records.as_mut_ptr(),
            queue.records.len(),
            shelves.controls.as_ptr(),
            shelves.controls.len(),
            shelves.records.as_ptr(),
            shelves.records.len(),
            shelf,
            queue.lefts.as_mut_ptr(),
            queue.lefts.len(),
            queue.rights.as_mut_ptr(),
            queue.rights.len(),
            queue.labels.as_mut_ptr(),
            queue.labels.len(),
            queue.marks.as_mut_ptr(),
            queue.marks.len(),
            queue.next.as_mut_ptr(),
            queue.next.len(),
            shelves.lefts.as_ptr(),
            shelves.lefts.len(),
            shelves.rights.as_ptr(),
            shelves.rights.len(),
            shelves.labels.as_ptr(),
            shelves.labels.len(),
            shelves.marks.as_ptr(),
            shelves.marks.len(),
            shelves.next.as_ptr(),
            shelves.next.len(),
        )
    };
    done(code)
}

impl Tables<'_> {
    /// Saves the queue on a shelf. Refuses 34 for control, 43, 12.
    pub fn save(&self, shelves: &mut ShelfTables<'_>, shelf: u64) -> Result<(), Refusal> {
        save(self.shared(), shelves, shelf)
    }

    /// Puts the queue on a shelf back. Refuses 43, 44, 34 for the shelf's control, 12.
    pub fn return_to(&mut self, shelves: &ShelfTables<'_>, shelf: u64) -> Result<(), Refusal> {
        let ShelfTables { controls, records, lefts, rights, labels, marks, next } = shelves;
        return_to(self, Look { controls, records, lefts, rights, labels, marks, next }, shelf)
    }
}

impl Queue {
    /// Saves the queue on a shelf, half-done calls and retries with it, and overwrites what lies
    /// there.
    ///
    /// ```
    /// use zeppolecape::{Answer, Queue, Refusal, Shelves, Side};
    ///
    /// let mut queue = Queue::open_pooled(2, 3, 0)?;
    /// let mut shelves = Shelves::new(2, 3);
    /// queue.push_pooled(0, Side::Right, 700)?;
    /// queue.save(&mut shelves, 5)?; // in the middle of the push
    /// assert_eq!(queue.finish(0)?, Answer::Pushed);
    /// queue.return_to(&shelves, 5)?; // that answer now belongs to no history
    /// assert_eq!(queue.report().waiting, 0);
    /// assert_eq!(queue.finish(0)?, Answer::Pushed);
    /// assert_eq!(queue.return_to(&shelves, 4), Err(Refusal::Unfilled));
    /// # Ok::<(), Refusal>(())
    /// ```
    ///
    /// Refuses [`Refusal::NoShelf`] above 7, [`Refusal::Short`] where the shelves are for smaller
    /// queues.
    pub fn save(&self, shelves: &mut Shelves, shelf: u64) -> Result<(), Refusal> {
        save(self.shared(), &mut shelves.lend(), shelf)
    }

    /// Goes back to the queue on a shelf, its tasks and slots too; the shelf keeps its copy. Refuses
    /// [`Refusal::NoShelf`], [`Refusal::Unfilled`], and [`Refusal::Short`] where this queue's tables
    /// are too short for the one on the shelf.
    pub fn return_to(&mut self, shelves: &Shelves, shelf: u64) -> Result<(), Refusal> {
        return_to(&mut self.lend(), shelves.look(), shelf)
    }
}

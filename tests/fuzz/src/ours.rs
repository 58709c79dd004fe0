//! The same tables as the Rust crate's, and answers of both sides in the same numbers.

use reference::machine::Moved;
use reference::tables::{Control, Record, Storage};
use zeppolecape::Tables;

/// An answer: what is told, or the number of a refusal.
pub type Told<T> = Result<T, u32>;

pub fn by_library<T>(answer: Result<T, zeppolecape::Refusal>) -> Told<T> {
    answer.map_err(zeppolecape::Refusal::number)
}

pub fn by_reference<T>(answer: Result<T, reference::refusal::Refusal>) -> Told<T> {
    answer.map_err(|refusal| refusal.number().into())
}

/// A start or step's answer as code, label and value.
pub fn answered(answer: zeppolecape::Answer) -> (u32, u32, u64) {
    use zeppolecape::Answer::{Empty, NoFreeSlot, Popped, Pushed, Running};
    match answer {
        Running(place) => (1, 0, place),
        Pushed => (2, 0, 0),
        Empty => (3, 0, 0),
        Popped { slot, label } => (4, label, slot),
        NoFreeSlot => (5, 0, 0),
    }
}

pub fn moved(moved: Moved) -> (u32, u32, u64) {
    match moved {
        Moved::Running(place) => (1, 0, place),
        Moved::Pushed => (2, 0, 0),
        Moved::Empty => (3, 0, 0),
        Moved::Popped { slot, label } => (4, label, slot),
        Moved::NoSlot => (5, 0, 0),
    }
}

pub fn control(from: &Control) -> zeppolecape::Control {
    let Control { tasks, slots, anchor, pooled, head } = *from;
    zeppolecape::Control { tasks, slots, anchor, pooled, head }
}

pub fn record(from: &Record) -> zeppolecape::Record {
    let Record { place, kind, side, own, label, seen, neighbour, link, finishing, retries } = *from;
    zeppolecape::Record { place, kind, side, own, label, seen, neighbour, link, finishing, retries }
}

/// The crate's side of tables that the second program keeps in a [`Storage`].
#[derive(Clone, Debug, PartialEq)]
pub struct Ours {
    pub control: zeppolecape::Control,
    pub records: Vec<zeppolecape::Record>,
    pub lefts: Vec<u64>,
    pub rights: Vec<u64>,
    pub labels: Vec<u32>,
    pub marks: Vec<u64>,
    pub next: Vec<u64>,
}

impl Ours {
    pub fn of(storage: &Storage) -> Ours {
        Ours {
            control: control(&storage.control),
            records: storage.records.iter().map(record).collect(),
            lefts: storage.lefts.clone(),
            rights: storage.rights.clone(),
            labels: storage.labels.clone(),
            marks: storage.marks.clone(),
            next: storage.next.clone(),
        }
    }

    pub fn lend(&mut self) -> Tables<'_> {
        let Ours { control, records, lefts, rights, labels, marks, next } = self;
        Tables { control, records, lefts, rights, labels, marks, next }
    }

    /// Every word as the second program left it.
    pub fn check(&self, theirs: &Storage, what: &str) {
        let theirs = Ours::of(theirs);
        assert_eq!(self.control, theirs.control, "{what}: control");
        assert_eq!(self.records, theirs.records, "{what}: records");
        assert_eq!(self.lefts, theirs.lefts, "{what}: lefts");
        assert_eq!(self.rights, theirs.rights, "{what}: rights");
        assert_eq!(self.labels, theirs.labels, "{what}: labels");
        assert_eq!(self.marks, theirs.marks, "{what}: marks");
        assert_eq!(self.next, theirs.next, "{what}: next");
    }
}

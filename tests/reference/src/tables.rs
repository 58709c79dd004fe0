//! What the caller lends: document 01, "Tables". Any contents and any lengths.

use crate::word::Side;

pub const PUSH: u64 = 0;
pub const POP: u64 = 1;

pub const MOST_TASKS: u64 = 16;
pub const MOST_SLOTS: u64 = 1_023;

/// The two ways to open, as control tells them: #104.
pub const NAMED: u64 = 0;
pub const POOLED: u64 = 1;

/// `head` is the top of the stack of free slots, laid out like a link word; 0 if named.
#[repr(C)]
#[derive(Clone, Copy, Debug, Default, PartialEq, Eq, Hash)]
pub struct Control {
    pub tasks: u64,
    pub slots: u64,
    pub anchor: u64,
    pub pooled: u64,
    pub head: u64,
}

/// A task record; `seen` is the Anchor as read, `link` the link word as read. `retries` is no part
/// of the call: the changes of this task that failed since the opening, #101.
#[repr(C)]
#[derive(Clone, Copy, Debug, Default, PartialEq, Eq, Hash)]
pub struct Record {
    pub place: u64,
    pub kind: u64,
    pub side: u64,
    pub own: u64,
    pub label: u32,
    pub seen: u64,
    pub neighbour: u64,
    pub link: u64,
    pub finishing: u64,
    pub retries: u64,
}

impl Record {
    /// The same count with no call: what an answer leaves, and what a start fills.
    pub fn cleared(&self) -> Record {
        Record { retries: self.retries, ..Record::default() }
    }
}

/// The tables that every task touches.
pub struct Shared<'a> {
    pub control: &'a mut Control,
    pub lefts: &'a mut [u64],
    pub rights: &'a mut [u64],
    pub labels: &'a mut [u32],
    pub marks: &'a mut [u64],
    /// Below each stacked slot the next one; only a pooled queue looks at it.
    pub next: &'a mut [u64],
}

/// The shared tables with the records side by side.
pub struct Tables<'a> {
    pub shared: Shared<'a>,
    pub records: &'a mut [Record],
}

impl Shared<'_> {
    /// Whether the queue was opened with its slots in a pool.
    pub fn is_pooled(&self) -> bool {
        self.control.pooled == POOLED
    }

    /// The Left links of all rows, or the Right links.
    pub fn links(&self, side: Side) -> &[u64] {
        match side {
            Side::Left => self.lefts,
            Side::Right => self.rights,
        }
    }

    pub fn links_mut(&mut self, side: Side) -> &mut [u64] {
        match side {
            Side::Left => self.lefts,
            Side::Right => self.rights,
        }
    }

    /// Bit n mod 64 of word n div 64.
    pub fn is_marked(&self, slot: u64) -> bool {
        self.marks[slot as usize / 64] >> (slot % 64) & 1 == 1
    }

    pub fn set_mark(&mut self, slot: u64) {
        self.marks[slot as usize / 64] |= 1 << (slot % 64);
    }

    pub fn clear_mark(&mut self, slot: u64) {
        self.marks[slot as usize / 64] &= !(1 << (slot % 64));
    }
}

/// Tables that are owned, for a program that lends to itself; at their most by default.
#[derive(Clone, Debug, PartialEq, Eq, Hash)]
pub struct Storage {
    pub control: Control,
    pub lefts: Vec<u64>,
    pub rights: Vec<u64>,
    pub labels: Vec<u32>,
    pub marks: Vec<u64>,
    pub next: Vec<u64>,
    pub records: Vec<Record>,
}

impl Default for Storage {
    fn default() -> Storage {
        Storage::fitting(MOST_TASKS, MOST_SLOTS)
    }
}

impl Storage {
    /// Tables just long enough for so many tasks and slots.
    pub fn fitting(tasks: u64, slots: u64) -> Storage {
        let rows = slots as usize + 1;
        Storage {
            control: Control::default(),
            lefts: vec![0; rows],
            rights: vec![0; rows],
            labels: vec![0; rows],
            marks: vec![0; slots as usize / 64 + 1],
            next: vec![0; rows],
            records: vec![Record::default(); tasks as usize],
        }
    }

    pub fn lend(&mut self) -> Tables<'_> {
        Tables {
            shared: Shared {
                control: &mut self.control,
                lefts: &mut self.lefts,
                rights: &mut self.rights,
                labels: &mut self.labels,
                marks: &mut self.marks,
                next: &mut self.next,
            },
            records: &mut self.records,
        }
    }
}

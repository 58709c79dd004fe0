//! Lent tables, the calls on them, and what both sides answer.

use reference::find::MOST_ASKED;
use reference::tables::{Control, Record};

/// A table: `count` entries are lent; those behind them must never change.
#[derive(Clone, Debug, PartialEq)]
pub struct Lent<T> {
    pub held: Vec<T>,
    pub count: usize,
    /// A table without entries may be null.
    pub null: bool,
}

impl<T> Lent<T> {
    pub fn new(held: Vec<T>, count: usize) -> Lent<T> {
        Lent { held, count, null: false }
    }

    pub fn slice(&mut self) -> &mut [T] {
        &mut self.held[..self.count]
    }

    pub fn pointer(&mut self) -> *mut T {
        match self.null && self.count == 0 {
            true => std::ptr::null_mut(),
            false => self.held.as_mut_ptr(),
        }
    }
}

#[derive(Clone, Debug, PartialEq)]
pub struct World {
    pub control: Control,
    pub records: Lent<Record>,
    /// The record that is lent alone.
    pub one: Record,
    pub lefts: Lent<u64>,
    pub rights: Lent<u64>,
    pub labels: Lent<u32>,
    pub marks: Lent<u64>,
    pub next: Lent<u64>,
    /// Where the labels waiting are written: their slots, and the labels.
    pub slots_out: Lent<u64>,
    pub labels_out: Lent<u32>,
}

#[derive(Clone, Copy, Debug, PartialEq)]
pub enum Call {
    Open {
        tasks: u64,
        slots: u64,
        tag: u32,
    },
    OpenPooled {
        tasks: u64,
        slots: u64,
        tag: u32,
    },
    Push {
        task: usize,
        side: u64,
        slot: u64,
        label: u32,
    },
    PushPooled {
        task: usize,
        side: u64,
        label: u32,
    },
    Pop {
        task: usize,
        side: u64,
    },
    Step {
        task: usize,
    },
    /// Steps until one does not answer running.
    Run {
        task: usize,
        most: u64,
    },
    /// A step on the record lent alone.
    StepRecord,
    /// A step on a task's record, lent where it lies.
    StepRow {
        task: usize,
    },
    Report,
    /// The first `count` labels are asked for.
    Find {
        asked: [u32; MOST_ASKED + 1],
        count: usize,
    },
    Waiting,
}

/// The exported calls.
#[derive(Clone, Copy, Debug, PartialEq, Eq, Hash, PartialOrd, Ord)]
pub enum Export {
    Open,
    OpenPooled,
    Push,
    PushPooled,
    Pop,
    Step,
    Run,
    StepRecord,
    Report,
    Find,
    Waiting,
    Sheet,
    SheetWords,
    Join,
    Serve,
    Save,
    Return,
    AuditWords,
    NextSchedule,
}

impl Export {
    /// Its name in C: that of the variant, a word a capital letter.
    pub fn name(self) -> String {
        let mut name = "zc".to_string();
        for letter in format!("{self:?}").chars() {
            if letter.is_uppercase() {
                name.push('_');
            }
            name.push(letter.to_ascii_lowercase());
        }
        name
    }
}

impl Call {
    pub fn export(&self) -> Export {
        match self {
            Call::Open { .. } => Export::Open,
            Call::OpenPooled { .. } => Export::OpenPooled,
            Call::Push { .. } => Export::Push,
            Call::PushPooled { .. } => Export::PushPooled,
            Call::Pop { .. } => Export::Pop,
            Call::Step { .. } => Export::Step,
            Call::Run { .. } => Export::Run,
            Call::StepRecord | Call::StepRow { .. } => Export::StepRecord,
            Call::Report => Export::Report,
            Call::Find { .. } => Export::Find,
            Call::Waiting => Export::Waiting,
        }
    }
}

/// An answer in numbers: code, label, value; a run's, and its steps; the report's fields; code, rows
/// and positions; code and how many wait.
#[derive(Clone, Copy, Debug, PartialEq)]
pub enum Told {
    Reply(u32, u32, u64),
    Run(u32, u32, u64, u64),
    /// Code, Anchor's fields, busy, waiting and taken, each task's retries.
    Report(u64, [u64; 4], [u64; 3], [u64; 16]),
    Find(u64, u64, [u64; MOST_ASKED]),
    Waiting(u64, u64),
}

impl Told {
    pub fn code(&self) -> u32 {
        match self {
            Told::Reply(code, ..) | Told::Run(code, ..) => *code,
            Told::Report(code, ..) | Told::Find(code, ..) | Told::Waiting(code, _) => *code as u32,
        }
    }
}

/// Where two worlds differ, the library's first.
pub fn difference(ours: &World, theirs: &World) -> Option<String> {
    fn rows<T: PartialEq + std::fmt::Debug>(
        name: &str,
        ours: &Lent<T>,
        theirs: &Lent<T>,
    ) -> Option<String> {
        let at = (0..ours.held.len()).find(|&at| ours.held[at] != theirs.held[at])?;
        Some(format!("{name}[{at}]: {:?}, expected {:?}", ours.held[at], theirs.held[at]))
    }
    if ours.control != theirs.control {
        return Some(format!("control: {:x?}, expected {:x?}", ours.control, theirs.control));
    }
    if ours.one != theirs.one {
        return Some(format!("record: {:x?}, expected {:x?}", ours.one, theirs.one));
    }
    rows("records", &ours.records, &theirs.records)
        .or_else(|| rows("lefts", &ours.lefts, &theirs.lefts))
        .or_else(|| rows("rights", &ours.rights, &theirs.rights))
        .or_else(|| rows("labels", &ours.labels, &theirs.labels))
        .or_else(|| rows("marks", &ours.marks, &theirs.marks))
        .or_else(|| rows("next", &ours.next, &theirs.next))
        .or_else(|| rows("slots out", &ours.slots_out, &theirs.slots_out))
        .or_else(|| rows("labels out", &ours.labels_out, &theirs.labels_out))
}

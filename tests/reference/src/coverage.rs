//! What the runs have reached: a count for each place, role, side and outcome in each way of
//! opening, each refusal, each answer, each size, each way in which what a stopped task has read
//! can be out of date, and where the slots were when a push was told that there is none.

use crate::machine::Moved;
use crate::pool;
use crate::refusal::LAST_START_TAG;
use crate::run::{Call, Event, Reply, Watcher};
use crate::tables::{Control, Record, Tables, MOST_SLOTS, MOST_TASKS, POOLED, POP};
use crate::ways::{self, Role, Way};
use crate::word::{Anchor, Link, Side};
use std::collections::BTreeMap;
use std::fmt::{self, Display, Formatter};

/// Something counted by its name.
#[derive(Clone, Copy, PartialEq, Eq, PartialOrd, Ord)]
enum Thing {
    Answered(&'static str, &'static str),
    Refused(&'static str, u8),
    Tasks(u64),
    Opened(&'static str),
    OutOfDate(&'static str),
    NoSlot(&'static str),
    File(&'static str),
}

/// The refusals that calls of a run file can meet.
const REFUSALS: [(&str, &[u8]); 7] = [
    (OPEN, &[10, 11]),
    (OPEN_POOLED, &[10, 11]),
    (PUSH, &[13, 14, 15, 30, 32, 33, 41]),
    (PUSH_POOLED, &[13, 14, 30, 33, 41]),
    ("pop", &[13, 14, 30, 33]),
    ("step", &[13, 31]),
    ("file", &[16]),
];

const OPEN: &str = "open";
const OPEN_POOLED: &str = "pooled open";
const PUSH: &str = "push";
const PUSH_POOLED: &str = "push without a slot";

const SLOTS: [(&str, u64); 5] = [
    ("1 slot", 1),
    ("2 to 8 slots", 8),
    ("9 to 64 slots", 64),
    ("65 to 1022 slots", 1_022),
    ("1023 slots", MOST_SLOTS),
];

const FIRST_TAGS: [(&str, u64); 5] = [
    ("first tag 0 to 3", 3),
    ("first tag up to 4294967221", LAST_START_TAG - 41),
    ("first tag up to 4294967261", LAST_START_TAG - 1),
    ("first tag 4294967262", LAST_START_TAG),
    ("first tag above", u32::MAX as u64),
];

const REMEMBERED: &str = "push starts on a slot that a stopped task remembers";
const ANCHOR_TAG: &str = "change of Anchor fails by its tag alone";
const LINK_TAG: &str = "change of a link fails by its tag alone";
const FRESH_LINK: &str = "task leaves at 8 with a fresh link in hand";
const HEAD_TAG: &str = "change of the head fails by its tag alone";
const STALE_NEXT: &str = "push at 14 holds another next than the slot on top has now";
const TAKEN_AGAIN: &str = "push gets a slot that a stopped task remembers";

const ALL_WAITING: &str = "every slot is waiting";
const PUSH_HOLDS: &str = "a push holds one";
const POP_READS: &str = "a pop at 11 holds one";
const POP_GIVES: &str = "a pop at 15 to 17 holds one";

pub struct Coverage {
    /// Left and right. All ways of the papers are here from the start, so any other
    /// is a fault of the machine.
    ways: BTreeMap<Way, [u64; 2]>,
    things: BTreeMap<Thing, u64>,
    before: Before,
}

/// What the next event finds; `link` is the one that a task at 8 or 9 has read, `next` that
/// of the slot which a task at 14 has read.
#[derive(Default)]
struct Before {
    record: Record,
    control: Control,
    link: u64,
    next: u64,
}

impl Watcher for Coverage {
    fn before(&mut self, tables: &Tables, task: Option<u8>) {
        let control = *tables.shared.control;
        let records = &tables.records[..control.tasks as usize];
        let record =
            task.and_then(|task| records.get(usize::from(task))).copied().unwrap_or_default();
        let side = Anchor::unpack(record.seen).pushed_side();
        let link = tables.shared.links(side)[record.neighbour as usize];
        let next = tables.shared.next[Link(record.link).slot() as usize];
        self.before = Before { record, control, link, next };
    }

    fn after(&mut self, tables: &Tables, event: &Event) -> Result<(), String> {
        let call = match event.call {
            Call::Open { pooled: false } => OPEN,
            Call::Open { pooled: true } => OPEN_POOLED,
            Call::Push { slot: Some(_), .. } => PUSH,
            Call::Push { slot: None, .. } => PUSH_POOLED,
            Call::Pop { .. } => "pop",
            Call::Step => "step",
            Call::File => "file",
        };
        match (event.call, event.reply) {
            (_, Reply::Refused(refusal)) => self.count(Thing::Refused(call, refusal.number())),
            (_, Reply::Moved(moved)) => return self.step(tables, moved, event.task),
            (Call::Open { .. }, Reply::Done) => self.opening(tables.shared.control),
            (Call::Push { slot: Some(slot), .. }, Reply::Done) => {
                self.remembered(REMEMBERED, tables, slot.into(), event.task)
            }
            (_, Reply::Done) => {}
        }
        if event.reply == Reply::Done {
            self.count(Thing::Answered(call, "ok"));
        }
        Ok(())
    }
}

impl Coverage {
    /// Nothing reached yet; `kinds` are the kinds of file that shall come.
    pub fn new(kinds: impl IntoIterator<Item = &'static str>) -> Coverage {
        let ways = ways::all().into_iter().map(|way| (way, [0, 0])).collect();
        let things = all_things().into_iter().chain(kinds.into_iter().map(Thing::File));
        let things = things.map(|thing| (thing, 0)).collect();
        Coverage { ways, things, before: Before::default() }
    }

    pub fn file(&mut self, kind: &'static str) {
        self.count(Thing::File(kind));
    }

    /// What another has reached, too.
    pub fn add(&mut self, other: &Coverage) {
        for (way, [left, right]) in &other.ways {
            let counts = self.ways.entry(*way).or_default();
            *counts = [counts[0] + left, counts[1] + right];
        }
        for (thing, count) in &other.things {
            *self.things.entry(*thing).or_default() += count;
        }
    }

    /// Everything that should have been reached and was not.
    pub fn missing(&self) -> Vec<String> {
        let ways = self.ways.iter().filter(|(_, counts)| counts.contains(&0));
        let things = self.things.iter().filter(|(_, count)| **count == 0);
        ways.map(|(way, _)| way.to_string())
            .chain(things.map(|(thing, _)| thing.to_string()))
            .collect()
    }

    fn count(&mut self, thing: Thing) {
        *self.things.entry(thing).or_default() += 1;
    }

    fn opening(&mut self, control: &Control) {
        let band = |bands: &[(&'static str, u64)], number: u64| {
            bands.iter().find(|(_, most)| number <= *most).map_or("beyond", |(name, _)| name)
        };
        self.count(Thing::Tasks(control.tasks));
        self.count(Thing::Opened(band(&SLOTS, control.slots)));
        self.count(Thing::Opened(band(&FIRST_TAGS, control.anchor >> 32)));
    }

    fn step(&mut self, tables: &Tables, moved: Moved, task: Option<u8>) -> Result<(), String> {
        let (next, answer) = match moved {
            Moved::Running(place) => (place, "running"),
            Moved::Pushed => (0, "pushed"),
            Moved::Empty => (0, "empty"),
            Moved::Popped { .. } => (0, "popped"),
            Moved::NoSlot => (0, "no slot"),
        };
        self.count(Thing::Answered("step", answer));
        let Before { record, control, .. } = self.before;
        let role = match (record.kind, record.finishing) {
            (POP, _) => Role::Pop,
            (_, 1) => Role::Finishing,
            _ => Role::Push,
        };
        let side = match record.place {
            5..=10 => Anchor::unpack(record.seen).pushed_side(),
            _ => Side::numbered(record.side),
        };
        let after = task.and_then(|task| tables.records.get(usize::from(task)));
        let failed = after.is_some_and(|after| after.retries > record.retries);
        let pooled = control.pooled == POOLED;
        let way = Way { pooled, place: record.place, role, failed, next };
        self.out_of_date(&way);
        match (way.place, next) {
            (12, 0) => self.no_slot(tables),
            (14, 1) => self.remembered(TAKEN_AGAIN, tables, Link(record.link).slot(), task),
            _ => {}
        }
        let counts = self.ways.get_mut(&way).ok_or_else(|| format!("no such way: {way}"))?;
        counts[usize::from(side == Side::Right)] += 1;
        Ok(())
    }

    /// Failures that only a tag explains, and those that place 8 prevents.
    fn out_of_date(&mut self, way: &Way) {
        let Before { record, control, link, next } = &self.before;
        let same_but_tag = |one: u64, other: u64| one as u32 == other as u32;
        let how = match way.place {
            2 | 4 | 10 if way.failed && same_but_tag(record.seen, control.anchor) => ANCHOR_TAG,
            9 if way.failed && same_but_tag(record.link, *link) => LINK_TAG,
            8 if way.next != 9 && record.link == *link => FRESH_LINK,
            14 | 17 if way.failed && same_but_tag(record.link, control.head) => {
                if way.place == 14 && record.neighbour != *next {
                    self.count(Thing::OutOfDate(STALE_NEXT));
                }
                HEAD_TAG
            }
            _ => return,
        };
        self.count(Thing::OutOfDate(how));
    }

    /// Where the slots are when a push is told that there is none.
    fn no_slot(&mut self, tables: &Tables) {
        let records = &tables.records[..tables.shared.control.tasks as usize];
        let mut holders: Vec<&'static str> = records
            .iter()
            .filter(|record| pool::held_slot(record).is_some())
            .map(|record| match (record.kind, record.place) {
                (POP, 11) => POP_READS,
                (POP, _) => POP_GIVES,
                _ => PUSH_HOLDS,
            })
            .collect();
        if holders.is_empty() {
            holders.push(ALL_WAITING);
        }
        holders.into_iter().for_each(|holder| self.count(Thing::NoSlot(holder)));
    }

    /// A slot comes into use again while another task still remembers it.
    fn remembered(&mut self, how: &'static str, tables: &Tables, slot: u64, starter: Option<u8>) {
        let remembers = |record: &Record| {
            let seen = Anchor::unpack(record.seen);
            let named = [seen.left, seen.right, record.neighbour, Link(record.link).slot()];
            record.place > 1 && named.contains(&slot)
        };
        let records = tables.records[..tables.shared.control.tasks as usize].iter();
        let mut others = records.enumerate().filter(|(task, _)| Some(*task as u8) != starter);
        if others.any(|(_, record)| remembers(record)) {
            self.count(Thing::OutOfDate(how));
        }
    }
}

fn all_things() -> Vec<Thing> {
    let mut things: Vec<Thing> = (1..=MOST_TASKS).map(Thing::Tasks).collect();
    for (call, numbers) in REFUSALS {
        things.extend(numbers.iter().map(|&number| Thing::Refused(call, number)));
    }
    let starts = [OPEN, OPEN_POOLED, PUSH, PUSH_POOLED, "pop"];
    things.extend(starts.map(|call| Thing::Answered(call, "ok")));
    let answers = ["running", "pushed", "empty", "popped", "no slot"];
    things.extend(answers.map(|answer| Thing::Answered("step", answer)));
    things.extend(SLOTS.iter().chain(&FIRST_TAGS).map(|(name, _)| Thing::Opened(name)));
    things.extend([REMEMBERED, ANCHOR_TAG, LINK_TAG, FRESH_LINK].map(Thing::OutOfDate));
    things.extend([HEAD_TAG, STALE_NEXT, TAKEN_AGAIN].map(Thing::OutOfDate));
    things.extend([ALL_WAITING, PUSH_HOLDS, POP_READS, POP_GIVES].map(Thing::NoSlot));
    things
}

impl Display for Thing {
    fn fmt(&self, out: &mut Formatter) -> fmt::Result {
        match self {
            Thing::Answered(call, answer) => write!(out, "{call} answers {answer}"),
            Thing::Refused(call, number) => write!(out, "{call} refused {number}"),
            Thing::Tasks(tasks) => write!(out, "opened with {tasks} tasks"),
            Thing::Opened(how) => write!(out, "opened with {how}"),
            Thing::OutOfDate(how) => write!(out, "{how}"),
            Thing::NoSlot(where_they_are) => write!(out, "no slot, and {where_they_are}"),
            Thing::File(kind) => write!(out, "file: {kind}"),
        }
    }
}

impl Display for Coverage {
    fn fmt(&self, out: &mut Formatter) -> fmt::Result {
        writeln!(out, "{:40}{:>10}{:>10}", "reached", "left", "right")?;
        for (way, [left, right]) in &self.ways {
            writeln!(out, "{:40}{left:>10}{right:>10}", way.to_string())?;
        }
        for (thing, count) in &self.things {
            writeln!(out, "{:60}{count:>10}", thing.to_string())?;
        }
        Ok(())
    }
}

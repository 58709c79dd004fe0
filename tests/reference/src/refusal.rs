//! The refusals: document 01, "Refused because of the input" and "of the state"; #104.
//!
//! Each test is one function; the callers in `machine` put them in the paper's order.

use crate::tables::{Control, Record, Shared, Tables, MOST_SLOTS, MOST_TASKS, POOLED, POP, PUSH};
use crate::word::{Anchor, Link, STABLE};

#[derive(Clone, Copy, Debug, PartialEq, Eq)]
pub enum Refusal {
    Tasks = 10,
    Slots = 11,
    Short = 12,
    NoTask = 13,
    NoSide = 14,
    NoSlot = 15,
    Malformed = 16,
    Sheet = 46,
    Busy = 30,
    Idle = 31,
    Taken = 32,
    WornTag = 33,
    Unsound = 34,
    WrongPush = 41,
    NotTwo = 42,
    NoShelf = 43,
    Unfilled = 44,
    ManyAsked = 45,
    NotAtRest = 47,
    Crowded = 48,
}

impl Refusal {
    pub fn number(self) -> u8 {
        self as u8
    }
}

/// Above this tag no start is accepted (33).
pub const LAST_START_TAG: u64 = 4_294_967_262;

/// `Err(refusal)` unless the condition holds.
#[inline]
pub fn demand(condition: bool, refusal: Refusal) -> Result<(), Refusal> {
    if condition {
        Ok(())
    } else {
        Err(refusal)
    }
}

/// 34 for control and Anchor.
pub fn control_sound(control: &Control) -> Result<(), Refusal> {
    let limits =
        (1..=MOST_TASKS).contains(&control.tasks) && (1..=MOST_SLOTS).contains(&control.slots);
    let anchor_sound = Anchor::unpack(control.anchor).is_sound(control.slots);
    demand(limits && control.pooled <= POOLED && anchor_sound, Refusal::Unsound)
}

/// 12 for the rows, the marks and, if `pooled`, the next table; `slots` within its limits.
pub fn shared_long_enough(shared: &Shared, slots: u64, pooled: bool) -> Result<(), Refusal> {
    let rows = slots as usize + 1;
    let words = slots as usize / 64 + 1;
    let enough = shared.lefts.len() >= rows
        && shared.rights.len() >= rows
        && shared.labels.len() >= rows
        && shared.marks.len() >= words
        && (!pooled || shared.next.len() >= rows);
    demand(enough, Refusal::Short)
}

/// 12 for all tables.
pub fn long_enough(tables: &Tables, tasks: u64, slots: u64, pooled: bool) -> Result<(), Refusal> {
    demand(tables.records.len() >= tasks as usize, Refusal::Short)?;
    shared_long_enough(&tables.shared, slots, pooled)
}

/// 34 for the record. An idle record is sound whatever its other fields.
#[inline]
pub fn record_sound(record: &Record, control: &Control) -> Result<(), Refusal> {
    demand(record.place == 0 || busy_record_sound(record, control), Refusal::Unsound)
}

fn busy_record_sound(record: &Record, control: &Control) -> bool {
    let slots = control.slots;
    let (seen, link) = (Anchor::unpack(record.seen), Link(record.link));
    let stabilising = (5..=10).contains(&record.place);
    let last_place = if control.pooled == POOLED { 17 } else { 11 };
    record.place <= last_place
        && own_fits(record, slots)
        && record.side <= 1
        && record.finishing <= 1
        && (record.finishing == 0 || (record.kind == PUSH && stabilising))
        && record.neighbour <= slots
        && link.is_sound(slots)
        && (!matches!(record.place, 13 | 14) || link.slot() != 0)
        && seen.is_sound(slots)
        && (!stabilising || seen.status != STABLE)
}

/// The places of each kind, and the own slot at each: a push has none before 14 has filled
/// it, a pop only from 11 on in a pooled queue.
fn own_fits(record: &Record, slots: u64) -> bool {
    let held = match (record.kind, record.place) {
        (PUSH, 1..=10) | (POP, 15..=17) => true,
        (PUSH, 12..=14) | (POP, 1..=11) => false,
        _ => return false,
    };
    if held {
        (1..=slots).contains(&record.own)
    } else {
        record.own == 0
    }
}

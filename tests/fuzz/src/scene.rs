//! Lent tables read off the input: opened and moved by the second program, then damaged.

use crate::bytes::Bytes;
use reference::tables::{Record, Storage, POP, PUSH};
use reference::word::{Anchor, STABLE};

const SLOTS: [u64; 12] = [1, 2, 3, 3, 4, 5, 8, 63, 64, 65, 130, 1_023];
const TAGS: [u32; 6] = [0, 1, 4_294_967_255, 4_294_967_261, 4_294_967_262, u32::MAX];

/// A queue in the middle of its calls, damaged or not.
pub fn tables(bytes: &mut Bytes) -> Storage {
    let mut tables = queue(bytes);
    for _ in 0..bytes.below(8) {
        damage(bytes, &mut tables);
    }
    tables
}

/// A queue that only calls have written to.
pub fn queue(bytes: &mut Bytes) -> Storage {
    let (slots, tasks) = (bytes.pick(&SLOTS), bytes.pick(&[1, 2, 2, 3, 16]));
    let more = bytes.below(3);
    let mut tables = Storage::fitting(tasks + more, slots + more);
    let tag = bytes.pick(&TAGS);
    match bytes.below(2) {
        0 => tables.lend().open(tasks, slots, tag).expect("long enough"),
        _ => tables.lend().open_pooled(tasks, slots, tag).expect("long enough"),
    }
    for _ in 0..bytes.below(64) {
        a_move(bytes, &mut tables);
    }
    tables
}

/// A start or some steps; what is refused changes nothing.
fn a_move(bytes: &mut Bytes, tables: &mut Storage) {
    let (tasks, slots) = (tables.control.tasks, tables.control.slots);
    let what = bytes.byte();
    let (task, side) = (u64::from(what >> 4) % tasks, u64::from(what >> 3 & 1));
    let mut lent = tables.lend();
    match what & 7 {
        0 if lent.shared.is_pooled() => drop(lent.push_pooled(task, side, bytes.label())),
        0 => drop(lent.push(task, side, 1 + bytes.below(slots), bytes.label())),
        1 => drop(lent.pop(task, side)),
        2 => drop(lent.run(task, 25)),
        _ => drop(lent.step(task)),
    }
}

/// A word or a length other than it was.
fn damage(bytes: &mut Bytes, tables: &mut Storage) {
    let slots = tables.control.slots.min(1_023);
    let row = bytes.below(slots + 1) as usize;
    match bytes.below(22) {
        0 => tables.control.tasks = bytes.near(16),
        1 => tables.control.slots = bytes.near(1_023),
        2 => tables.control.anchor ^= 1 << bytes.below(64),
        3 => tables.control.pooled = bytes.near(1),
        4 => tables.control.head = link(bytes, slots),
        5 => put(&mut tables.lefts, row, link(bytes, slots)),
        6 => put(&mut tables.rights, row, link(bytes, slots)),
        7 => put(&mut tables.labels, row, bytes.label()),
        8 => put(&mut tables.marks, row / 64, bytes.word()),
        9 => put(&mut tables.next, row, bytes.near(slots)),
        10 => tables.records.truncate(bytes.below(17) as usize),
        11 => tables.lefts.truncate(row),
        12 => tables.rights.truncate(row),
        13 => tables.labels.truncate(row),
        14 => tables.marks.truncate(row / 64),
        15 => tables.next.truncate(row),
        16 => tables.control.anchor = anchor(bytes, slots),
        17..=19 => stand(bytes, tables, slots),
        _ => {
            let at = bytes.below(tables.records.len() as u64) as usize;
            if let Some(record) = tables.records.get_mut(at) {
                spoil(bytes, record, slots);
            }
        }
    }
}

fn put<T>(table: &mut [T], row: usize, value: T) {
    if let Some(entry) = table.get_mut(row) {
        *entry = value;
    }
}

fn tag(bytes: &mut Bytes) -> u64 {
    bytes.pick(&[0, 1, 2, 4_294_967_262, 4_294_967_263, 4_294_967_295]) << 32
}

pub fn link(bytes: &mut Bytes, slots: u64) -> u64 {
    let low = match bytes.below(8) {
        0 => 1 << (15 + bytes.below(17)) | bytes.below(slots + 1),
        _ => beyond(bytes, slots),
    };
    tag(bytes) | low
}

/// A number up to `near`, or the one beyond it.
fn beyond(bytes: &mut Bytes, near: u64) -> u64 {
    bytes.below(near + 2)
}

pub fn anchor(bytes: &mut Bytes, slots: u64) -> u64 {
    tag(bytes)
        | bytes.below(4) << 30
        | (bytes.near(slots) & 0x7fff) << 15
        | bytes.near(slots) & 0x7fff
}

/// A task stands at a place that no history led to, its record sound if nothing else spoils it. The words
/// that its step compares are as read in most cases.
fn stand(bytes: &mut Bytes, tables: &mut Storage, slots: u64) {
    let place = 1 + bytes.below(17);
    let kind = match place {
        11 | 15..=17 => POP,
        12..=14 => PUSH,
        _ => bytes.below(2),
    };
    let helping = (5..=10).contains(&place);
    if helping || bytes.below(2) == 0 {
        let (left, right) = (1 + bytes.below(slots), 1 + bytes.below(slots));
        let status = if helping { 1 + bytes.below(2) } else { STABLE };
        tables.control.anchor = Anchor { tag: tag(bytes) >> 32, status, left, right }.pack();
    }
    let neighbour = bytes.below(slots + 1);
    let met = |links: &[u64]| links.get(neighbour as usize).copied().unwrap_or(0);
    let link = match bytes.below(5) {
        0 | 1 => tables.control.head,
        2 => met(&tables.lefts),
        3 => met(&tables.rights),
        _ => link(bytes, slots),
    };
    let held = if kind == PUSH { place <= 10 } else { place >= 15 };
    let record = Record {
        place,
        kind,
        side: bytes.below(2),
        own: if held { 1 + bytes.below(slots) } else { 0 },
        label: bytes.label(),
        seen: if bytes.below(4) == 0 { anchor(bytes, slots) } else { tables.control.anchor },
        neighbour,
        link,
        finishing: if kind == PUSH && helping { bytes.below(2) } else { 0 },
        retries: bytes.pick(&[0, 1, 4_294_967_294, 4_294_967_295]),
    };
    let at = bytes.below(tables.records.len() as u64) as usize;
    put(&mut tables.records, at, record);
}

/// A field of a record; now and then any number there.
pub fn spoil(bytes: &mut Bytes, record: &mut Record, slots: u64) {
    let number = if bytes.below(4) == 0 { Bytes::near } else { beyond };
    match bytes.below(10) {
        0 => record.place = number(bytes, 17),
        1 => record.kind = number(bytes, 1),
        2 => record.side = number(bytes, 1),
        3 => record.own = number(bytes, slots),
        4 => record.label = bytes.label(),
        5 => record.seen = anchor(bytes, slots),
        6 => record.neighbour = number(bytes, slots),
        7 => record.link = link(bytes, slots),
        8 => record.finishing = number(bytes, 1),
        _ => record.retries = bytes.pick(&[1, 4_294_967_294, 4_294_967_295, u64::MAX]),
    }
}

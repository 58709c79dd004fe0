//! Two lanes into one: the library against the second program, which pushes label by label. Lanes of
//! any shape, the same tables twice, none and 1,023 labels, tags at the limit, damaged tables.

use crate::calls::called;
use crate::tally::Tally;
use crate::world::Export;
use reference::dice::Dice;
use reference::join::join;
use reference::tables::Storage;
use zeppolecape::raw;

/// A queue at rest with so many labels in slots of any order; what its idle records hold is left over.
fn lane(dice: &mut Dice, count: u64) -> Storage {
    let most = dice.pick(&[count.max(1), 1_023]);
    let slots = dice.between(count.max(1), most);
    let tasks = dice.between(1, 16);
    let mut tables = Storage::fitting(tasks, slots);
    let mut order: Vec<u64> = (1..=slots).collect();
    for at in (1..order.len()).rev() {
        order.swap(at, dice.between(0, at as u64) as usize);
    }
    order.truncate(count as usize);
    let few = dice.percent(50);
    for row in 0..=slots as usize {
        tables.labels[row] = if few { dice.between(0, 3) } else { dice.throw() } as u32;
        tables.lefts[row] = dice.throw();
        tables.rights[row] = dice.throw();
    }
    for pair in order.windows(2) {
        tables.lefts[pair[1] as usize] = dice.throw() << 32 | pair[0];
    }
    for record in &mut tables.records {
        record.label = dice.throw() as u32;
        record.seen = dice.throw();
        record.retries = dice.throw();
    }
    let (left, right) = (order.first().unwrap_or(&0), order.last().unwrap_or(&0));
    tables.control.tasks = tasks;
    tables.control.slots = slots;
    tables.control.anchor = dice.throw() << 32 | left << 15 | right;
    tables.control.pooled = dice.between(0, 1);
    tables
}

fn fresh(dice: &mut Dice, slots: u64, count: u64) -> Storage {
    let tasks = dice.between(1, 16);
    let mut tables = Storage::fitting(tasks, slots);
    let limit = 4_294_967_262 + dice.between(0, 8);
    let tag = match dice.between(0, 2) {
        0 => limit - 2 * count,
        1 => limit,
        _ => dice.throw() >> 32,
    };
    tables.lend().open(tasks, slots, tag.min(u64::from(u32::MAX)) as u32).expect("opens");
    for record in &mut tables.records {
        record.kind = dice.between(0, 3);
        record.retries = dice.throw();
    }
    tables
}

/// One word or length other than it should be.
fn damage(dice: &mut Dice, tables: &mut Storage) {
    let any = dice.between(0, tables.control.slots);
    let row = dice.pick(&[0, tables.control.slots, any]) as usize;
    let bit = 1 << dice.between(0, 63);
    match dice.between(0, 17) {
        0 => tables.lefts[row] ^= bit,
        1 => tables.rights[row] ^= bit,
        2 => tables.labels[row] ^= 1 << dice.between(0, 31),
        3 => tables.marks[row / 64] ^= bit,
        4 => tables.control.anchor ^= 1 << dice.between(0, 31),
        5 => tables.control.pooled = dice.between(0, 3),
        6 => tables.control.slots = dice.pick(&[0, 1_024, u64::MAX]),
        7 => tables.control.tasks = dice.pick(&[0, 1, 16, 17]),
        8 => tables.records[0].place = dice.between(1, 20),
        9 => tables.records.truncate(dice.between(0, 1) as usize),
        10 => tables.lefts.truncate(row),
        11 => tables.rights.truncate(row),
        12 => tables.labels.truncate(row),
        13 => tables.marks.truncate(row / 64),
        14 => tables.control.anchor |= 3 << 30,
        15 | 16 => {
            // the walk meets slot 0, one beyond the last, or perhaps one that it has met
            let met = dice.between(1, tables.control.slots);
            tables.lefts[row] = dice.pick(&[0, tables.control.slots + 1, met, met]);
        }
        // a single label waits, in a third queue too
        _ => tables.control.anchor = row.max(1) as u64 * 0x8001,
    }
}

fn by_library(first: &Storage, second: &Storage, third: &mut Storage) -> u32 {
    // SAFETY: every pointer goes with its length; only the third is written.
    unsafe {
        called!(zc_join(
            (&raw const first.control).cast(),
            first.records.as_ptr().cast(),
            first.records.len(),
            (&raw const second.control).cast(),
            second.records.as_ptr().cast(),
            second.records.len(),
            (&raw mut third.control).cast(),
            third.records.as_mut_ptr().cast(),
            third.records.len(),
            first.lefts.as_ptr(),
            first.lefts.len(),
            first.rights.as_ptr(),
            first.rights.len(),
            first.labels.as_ptr(),
            first.labels.len(),
            second.lefts.as_ptr(),
            second.lefts.len(),
            second.rights.as_ptr(),
            second.rights.len(),
            second.labels.as_ptr(),
            second.labels.len(),
            third.lefts.as_mut_ptr(),
            third.lefts.len(),
            third.rights.as_mut_ptr(),
            third.rights.len(),
            third.labels.as_mut_ptr(),
            third.labels.len(),
            third.marks.as_mut_ptr(),
            third.marks.len(),
        ))
    }
}

pub fn joins(tally: &mut Tally, dice: &mut Dice, rounds: u32) {
    for _ in 0..rounds {
        let most = dice.pick(&[1, 4, 70, 70, 200, 1_023]);
        let slots = dice.between(1, most);
        let ours = dice.between(0, slots);
        let over = u64::from(dice.percent(20));
        let theirs = dice.between(0, slots - ours + over);
        let (mut first, mut second) = (lane(dice, ours), lane(dice, theirs.min(1_023)));
        let mut third = fresh(dice, slots, ours + theirs);
        if dice.percent(40) {
            match dice.between(0, 2) {
                0 => damage(dice, &mut first),
                1 => damage(dice, &mut second),
                _ => damage(dice, &mut third),
            }
        }
        if dice.percent(10) {
            second = first.clone();
        }
        let mut expected = third.clone();
        let (mut one, mut two) = (first.clone(), second.clone());
        let answer = match join(&one.lend(), &two.lend(), &mut expected.lend()) {
            Ok(()) => 0,
            Err(refusal) => u32::from(refusal.number()),
        };
        let code = by_library(&first, &second, &mut third);
        tally.answered(Export::Join, answer);
        if code != answer || third != expected || first != one || second != two {
            tally.differs(|| format!("zc_join: {code}, expected {answer}, or the tables"));
        }
    }
    tally.check_reached(&[Export::Join]);
}

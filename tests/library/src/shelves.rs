//! Shelves: the library against the second program. Queues in the middle of their calls, damaged
//! ones, tables and shelves of any length, saved on any shelf and returned to from other tables.

use crate::calls::called;
use crate::tally::Tally;
use crate::world::Export;
use reference::dice::Dice;
use reference::shelf::{put_back, save, Rack};
use reference::tables::{Control, Storage};
use zeppolecape::raw;

/// A queue, named or pooled, left in the middle of its calls; rows and records beyond hold anything.
fn queue(dice: &mut Dice, tasks: u64, slots: u64, pooled: bool) -> Storage {
    let more = dice.between(0, 2);
    let mut tables = Storage::fitting(tasks + more, slots + more);
    fill(dice, &mut tables);
    let tag = dice.throw() as u32;
    match pooled {
        true => tables.lend().open_pooled(tasks, slots, tag).expect("opens"),
        false => tables.lend().open(tasks, slots, tag).expect("opens"),
    }
    for _ in 0..dice.between(0, 80) {
        turn(dice, &mut tables, pooled);
    }
    if !pooled && dice.percent(50) {
        tables.next.truncate(dice.between(0, slots) as usize);
    }
    tables
}

/// A start or a step of some task; one that is refused changes nothing.
fn turn(dice: &mut Dice, tables: &mut Storage, pooled: bool) {
    let Control { tasks, slots, .. } = tables.control;
    let (task, side, label) = (dice.between(0, tasks - 1), dice.between(0, 1), dice.throw() as u32);
    let _ = match (tables.records[task as usize].place, dice.percent(30)) {
        (0, true) => tables.lend().pop(task, side),
        (0, false) if pooled => tables.lend().push_pooled(task, side, label),
        (0, false) => tables.lend().push(task, side, dice.between(1, slots), label),
        _ => tables.lend().step(task).map(|_| ()),
    };
}

fn fill(dice: &mut Dice, tables: &mut Storage) {
    let words = [&mut tables.lefts, &mut tables.rights, &mut tables.marks, &mut tables.next];
    words.into_iter().flatten().for_each(|word| *word = dice.throw());
    tables.labels.iter_mut().for_each(|label| *label = dice.throw() as u32);
    tables.records.iter_mut().for_each(|record| record.retries = dice.throw());
}

/// Shelves of some length, with a rest that is in no part, and what somebody left there.
fn rack(dice: &mut Dice, tasks: u64, slots: u64) -> Rack {
    let more = dice.between(0, 2);
    let mut rack = Rack::fitting(tasks + more, slots + more);
    let words = [&mut rack.lefts, &mut rack.rights, &mut rack.marks, &mut rack.next];
    for table in words {
        table.extend(vec![0; dice.between(0, 7) as usize]);
        table.iter_mut().for_each(|word| *word = dice.throw());
    }
    rack.labels.iter_mut().for_each(|label| *label = dice.throw() as u32);
    rack.records.iter_mut().for_each(|record| record.retries = dice.throw());
    rack
}

fn damage_control(dice: &mut Dice, control: &mut Control) {
    match dice.between(0, 6) {
        0 => control.anchor ^= 1 << dice.between(0, 31),
        1 => control.anchor |= 3 << 30,
        2 => control.slots = dice.pick(&[0, 1_024, u64::MAX]),
        3 => control.tasks = dice.pick(&[0, 17, u64::MAX]),
        4 => control.pooled = dice.pick(&[2, u64::MAX]),
        5 => control.pooled ^= 1,
        _ => control.anchor = dice.between(0, 1_023) << 15,
    }
}

/// One length too short for these tasks and slots, by one entry or by many.
fn shorten(dice: &mut Dice, queue: &mut Storage, rack: &mut Rack, tasks: u64, slots: u64) {
    let less = if dice.percent(50) { 1 } else { dice.between(1, 9) } as usize;
    let (tasks, rows, words) = (tasks as usize, slots as usize + 1, slots as usize / 64 + 1);
    let cut = |needed: usize| needed.saturating_sub(less);
    match dice.between(0, 12) {
        0 => queue.records.truncate(cut(tasks)),
        1 => queue.lefts.truncate(cut(rows)),
        2 => queue.rights.truncate(cut(rows)),
        3 => queue.labels.truncate(cut(rows)),
        4 => queue.marks.truncate(cut(words)),
        5 => queue.next.truncate(cut(rows)),
        6 => rack.records.truncate(cut(8 * tasks)),
        7 => rack.lefts.truncate(cut(8 * rows)),
        8 => rack.rights.truncate(cut(8 * rows)),
        9 => rack.labels.truncate(cut(8 * rows)),
        10 => rack.marks.truncate(cut(8 * words)),
        11 => rack.next.truncate(cut(8 * rows)),
        _ => rack.controls.truncate(cut(8)),
    }
}

macro_rules! lent {
    ($name:ident, $queue:ident, $rack:ident, $shelf:expr, $control:expr, $of_queue:ident, $of_rack:ident) => {
        // SAFETY: every pointer goes with its length; queue and shelves lie apart.
        unsafe {
            called!($name(
                $control,
                $queue.records.$of_queue().cast(),
                $queue.records.len(),
                $rack.controls.$of_rack().cast(),
                $rack.controls.len(),
                $rack.records.$of_rack().cast(),
                $rack.records.len(),
                $shelf,
                $queue.lefts.$of_queue(),
                $queue.lefts.len(),
                $queue.rights.$of_queue(),
                $queue.rights.len(),
                $queue.labels.$of_queue(),
                $queue.labels.len(),
                $queue.marks.$of_queue(),
                $queue.marks.len(),
                $queue.next.$of_queue(),
                $queue.next.len(),
                $rack.lefts.$of_rack(),
                $rack.lefts.len(),
                $rack.rights.$of_rack(),
                $rack.rights.len(),
                $rack.labels.$of_rack(),
                $rack.labels.len(),
                $rack.marks.$of_rack(),
                $rack.marks.len(),
                $rack.next.$of_rack(),
                $rack.next.len(),
            ))
        }
    };
}

fn library_saves(queue: &Storage, rack: &mut Rack, shelf: u64) -> u32 {
    let control = (&raw const queue.control).cast();
    lent!(zc_save, queue, rack, shelf, control, as_ptr, as_mut_ptr)
}

fn library_returns(queue: &mut Storage, rack: &Rack, shelf: u64) -> u32 {
    let control = (&raw mut queue.control).cast();
    lent!(zc_return, queue, rack, shelf, control, as_mut_ptr, as_ptr)
}

fn number(done: Result<(), reference::refusal::Refusal>) -> u32 {
    done.map_or_else(|refusal| u32::from(refusal.number()), |()| 0)
}

/// Mostly a shelf from 0 to 7.
fn any_shelf(dice: &mut Dice) -> u64 {
    let wrong = dice.pick(&[8, 9, u64::MAX]);
    if dice.percent(10) {
        wrong
    } else {
        dice.between(0, 7)
    }
}

fn one_round(tally: &mut Tally, dice: &mut Dice) {
    let most = dice.pick(&[1, 4, 70, 130, 1_023]);
    let (tasks, slots, pooled) = (dice.between(1, 16), dice.between(1, most), dice.percent(50));
    let (mut from, mut ours) = (queue(dice, tasks, slots, pooled), rack(dice, tasks, slots));
    let other = dice.percent(50);
    let mut back = queue(dice, tasks, slots, other);
    back.next.resize(slots as usize + 1, 9);
    match dice.between(0, 9) {
        0 => damage_control(dice, &mut from.control),
        1 => shorten(dice, &mut from, &mut ours, tasks, slots),
        _ => {}
    }
    let (shelf, untouched, mut theirs) = (any_shelf(dice), from.clone(), ours.clone());
    let expected = number(save(&from.lend(), &mut theirs, shelf));
    let code = library_saves(&from, &mut ours, shelf);
    tally.answered(Export::Save, expected);
    if code != expected || ours != theirs || from != untouched {
        tally.differs(|| format!("zc_save: {code}, expected {expected}, or the tables"));
    }

    let again = if dice.percent(80) { shelf } else { any_shelf(dice) };
    match dice.between(0, 9) {
        0 => ours.controls.iter_mut().for_each(|control| damage_control(dice, control)),
        1 => shorten(dice, &mut back, &mut ours, tasks, slots),
        2 => damage_control(dice, &mut back.control), // which a return does not look at
        _ => {}
    }
    let (mut expected_back, mut theirs) = (back.clone(), ours.clone());
    let expected = number(put_back(&mut expected_back.lend(), &mut theirs, again));
    let code = library_returns(&mut back, &ours, again);
    tally.answered(Export::Return, expected);
    if code != expected || back != expected_back || ours != theirs {
        tally.differs(|| format!("zc_return: {code}, expected {expected}, or the tables"));
    }
}

pub fn shelves(tally: &mut Tally, dice: &mut Dice, rounds: u32) {
    for _ in 0..rounds {
        one_round(tally, dice);
    }
    tally.check_reached(&[Export::Save, Export::Return]);
}

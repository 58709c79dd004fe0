//! One exported call on lent tables, through the Rust crate and by the second program.

use crate::bytes::Bytes;
use crate::ours::{answered, by_library, by_reference, moved, record, Ours};
use crate::{audits, scene, shelves, split};
use reference::tables::Storage;
use reference::{join, schedules, sheet};
use zeppolecape::{Ending, SheetVerdict};

/// The first byte names the call, the others its tables and arguments.
pub fn compare(input: &[u8]) {
    let mut bytes = Bytes::of(input);
    let call = match bytes.byte() {
        240.. => return audits::compare(&mut bytes),
        number => usize::from(number) % CALLS.len(),
    };
    let mut theirs = scene::tables(&mut bytes);
    let mut ours = Ours::of(&theirs);
    let (name, carried_out) = CALLS[call];
    carried_out(&mut bytes, &mut ours, &mut theirs);
    ours.check(&theirs, name);
}

type Call = fn(&mut Bytes, &mut Ours, &mut Storage);

const CALLS: [(&str, Call); 20] = [
    ("open", open),
    ("open_pooled", open_pooled),
    ("push", push),
    ("push_pooled", push_pooled),
    ("pop", pop),
    ("step", step),
    ("step_record", step_record),
    ("run", run),
    ("report", report),
    ("find", find),
    ("waiting", waiting),
    ("sheet", sheets),
    ("sheet_words", sheet_words),
    ("save", shelves::save),
    ("return", shelves::return_to),
    ("join", joined),
    ("next_schedule", next_schedule),
    ("serve", serve),
    ("plan and settle", split::step),
    ("plan and settle a start", split::start),
];

fn sizes(bytes: &mut Bytes) -> (u64, u64, u32) {
    (bytes.near(16), bytes.near(1_023), bytes.word() as u32)
}

fn open(bytes: &mut Bytes, ours: &mut Ours, theirs: &mut Storage) {
    let (tasks, slots, tag) = sizes(bytes);
    let told = by_library(ours.lend().open(tasks, slots, tag));
    assert_eq!(told, by_reference(theirs.lend().open(tasks, slots, tag)));
}

fn open_pooled(bytes: &mut Bytes, ours: &mut Ours, theirs: &mut Storage) {
    let (tasks, slots, tag) = sizes(bytes);
    let told = by_library(ours.lend().open_pooled(tasks, slots, tag));
    assert_eq!(told, by_reference(theirs.lend().open_pooled(tasks, slots, tag)));
}

fn push(bytes: &mut Bytes, ours: &mut Ours, theirs: &mut Storage) {
    let (task, side, slot, label) = (bytes.near(3), bytes.near(1), bytes.near(8), bytes.label());
    let told = by_library(ours.lend().push(task as usize, side, slot, label)).map(answered);
    let expected = by_reference(theirs.lend().push(task, side, slot, label)).map(|()| (1, 0, 1));
    assert_eq!(told, expected);
}

fn push_pooled(bytes: &mut Bytes, ours: &mut Ours, theirs: &mut Storage) {
    let (task, side, label) = (bytes.near(3), bytes.near(1), bytes.label());
    let told = by_library(ours.lend().push_pooled(task as usize, side, label)).map(answered);
    let expected = by_reference(theirs.lend().push_pooled(task, side, label)).map(|()| (1, 0, 12));
    assert_eq!(told, expected);
}

fn pop(bytes: &mut Bytes, ours: &mut Ours, theirs: &mut Storage) {
    let (task, side) = (bytes.near(3), bytes.near(1));
    let told = by_library(ours.lend().pop(task as usize, side)).map(answered);
    assert_eq!(told, by_reference(theirs.lend().pop(task, side)).map(|()| (1, 0, 1)));
}

fn step(bytes: &mut Bytes, ours: &mut Ours, theirs: &mut Storage) {
    let task = bytes.near(3);
    let told = by_library(ours.lend().step(task as usize)).map(answered);
    assert_eq!(told, by_reference(theirs.lend().step(task)).map(moved));
}

/// On a record that lies elsewhere.
fn step_record(bytes: &mut Bytes, ours: &mut Ours, theirs: &mut Storage) {
    let at = bytes.below(4) as usize;
    let mut two = theirs.records.get(at).copied().unwrap_or_default();
    let mut one = record(&two);
    let told = by_library(ours.lend().step_record(&mut one)).map(answered);
    assert_eq!(told, by_reference(theirs.lend().shared.step_lent(&mut two)).map(moved));
    assert_eq!(one, record(&two));
}

fn run(bytes: &mut Bytes, ours: &mut Ours, theirs: &mut Storage) {
    let (task, most) = (bytes.near(3), bytes.near(30).min(100));
    let told = ours.lend().run(task as usize, most);
    let (answer, steps) = theirs.lend().run(task, most);
    assert_eq!(by_library(told.outcome).map(answered), by_reference(answer).map(moved));
    assert_eq!(told.steps, steps);
}

fn report(_: &mut Bytes, ours: &mut Ours, theirs: &mut Storage) {
    let told = by_library(ours.lend().report()).map(|told| {
        let anchor = told.anchor;
        let counts = [told.busy, told.waiting, told.taken];
        ([anchor.tag, anchor.status, anchor.left, anchor.right], counts, told.retries)
    });
    let expected = by_reference(theirs.lend().report()).map(|told| {
        let counts = [told.busy, told.waiting, told.taken];
        ([told.tag, told.status, told.left, told.right], counts, told.retries)
    });
    assert_eq!(told, expected);
}

fn find(bytes: &mut Bytes, ours: &mut Ours, theirs: &mut Storage) {
    let asked = bytes.list(34, Bytes::label);
    let told = by_library(ours.lend().find(&asked)).map(|found| (found.rows, found.positions));
    let expected = theirs.lend().shared.find(&asked).map(|found| (found.rows, found.positions));
    assert_eq!(told, by_reference(expected));
}

fn waiting(bytes: &mut Bytes, ours: &mut Ours, theirs: &mut Storage) {
    let (mut slots, mut labels) =
        (vec![7; bytes.near(9).min(1_100) as usize], vec![7; bytes.near(9).min(1_100) as usize]);
    let (mut places, mut copies) = (slots.clone(), labels.clone());
    let told = by_library(ours.lend().waiting(&mut slots, &mut labels)).map(|count| count as u64);
    assert_eq!(told, by_reference(theirs.lend().shared.read_out(&mut places, &mut copies)));
    assert_eq!((slots, labels), (places, copies));
}

fn a_sheet(bytes: &mut Bytes) -> (Vec<u32>, Vec<u32>) {
    let listed = match bytes.below(4) {
        0 => bytes.list(33, Bytes::label),
        _ => (0..bytes.below(34) as u32).collect(),
    };
    let last = listed.len() as u64;
    let rules = bytes.list(130, |bytes| zeppolecape::rule(bytes.near(last), bytes.near(last)));
    (listed, rules)
}

fn kept(verdict: SheetVerdict) -> sheet::Verdict {
    match verdict {
        SheetVerdict::Kept => sheet::Verdict::Kept,
        SheetVerdict::Broken { first, second } => {
            sheet::Verdict::Broken(first as usize, second as usize)
        }
    }
}

fn sheets(bytes: &mut Bytes, ours: &mut Ours, theirs: &mut Storage) {
    let (listed, rules) = a_sheet(bytes);
    let told = by_library(ours.lend().sheet(&listed, &rules)).map(kept);
    assert_eq!(told, by_reference(sheet::sheet(&theirs.lend().shared, &listed, &rules)));
}

fn sheet_words(bytes: &mut Bytes, ours: &mut Ours, theirs: &mut Storage) {
    let (listed, rules) = a_sheet(bytes);
    let mut words = vec![7; bytes.pick(&[32, 32, 33, 31, 0])];
    let mut others = words.clone();
    let told = by_library(ours.lend().sheet_words(&listed, &rules, &mut words)).map(kept);
    let lent = theirs.lend().shared;
    assert_eq!(told, by_reference(sheet::sheet_words(&lent, &listed, &rules, &mut others)));
    assert_eq!(words, others);
}

/// The scene and another in a third, fresh or not; the sources are only read.
fn joined(bytes: &mut Bytes, ours: &mut Ours, theirs: &mut Storage) {
    let mut other = scene::tables(bytes);
    let mut two = match bytes.below(4) {
        0 => scene::tables(bytes),
        _ => {
            let slots = bytes.pick(&[1, 2, 5, 9, 64, 200]);
            let mut fresh = Storage::fitting(1, slots);
            fresh.lend().open(1, slots, bytes.pick(&[0, 4_294_967_250])).expect("long enough");
            fresh
        }
    };
    let (mut third, mut second) = (Ours::of(&two), Ours::of(&other));
    let told = by_library(third.lend().join(&ours.lend(), &second.lend()));
    let expected = join::join(&theirs.lend(), &other.lend(), &mut two.lend());
    assert_eq!(told, by_reference(expected));
    third.check(&two, "join: the third");
    second.check(&other, "join: the second");
}

fn orders(schedule: schedules::Schedule) -> zeppolecape::Schedule {
    let ending = match schedule.ending {
        schedules::Ending::Answered => Ending::Answered,
        schedules::Ending::Cut => Ending::Cut,
        schedules::Ending::Refused => Ending::Stopped,
    };
    let tasks = schedule.tasks.iter().map(|&task| task as usize).collect();
    zeppolecape::Schedule { tasks, ending }
}

/// The first schedule after any list; a length above 48 is taken as 48.
fn next_schedule(bytes: &mut Bytes, ours: &mut Ours, theirs: &mut Storage) {
    let lent = bytes.pick(&[49, 49, 49, 50, 48, 0]);
    let mut after = bytes.list(48, |bytes| bytes.near(1));
    let mut memory = vec![7; lent];
    if lent > 48 {
        memory[1..=after.len()].copy_from_slice(&after);
        memory[0] = after.len() as u64;
        if bytes.below(16) == 1 {
            memory[0] = 48_u64.saturating_add(bytes.near(9));
            after = memory[1..49].to_vec();
        }
    }
    let mut left = memory.clone();
    let told = by_library(ours.lend().next_schedule(&mut memory));
    let expected =
        by_reference(schedules::admit(theirs, lent)).map(|()| schedules::next(theirs, &after));
    if let Ok(Some(schedule)) = &expected {
        left[0] = schedule.tasks.len() as u64;
        left[1..=schedule.tasks.len()].copy_from_slice(&schedule.tasks);
        memory[schedule.tasks.len() + 1..].copy_from_slice(&left[schedule.tasks.len() + 1..]);
    }
    assert_eq!(told, expected.map(|found| found.map(orders)));
    assert_eq!(memory, left);
}

fn serve(bytes: &mut Bytes, ours: &mut Ours, theirs: &mut Storage) {
    let (pooled, tasks, slots, tag) =
        (bytes.below(2) == 1, bytes.near(3), bytes.near(8), bytes.byte().into());
    let words = bytes.list(200, |bytes| bytes.near(4));
    let mut answers = vec![7; bytes.below(130) as usize];
    let mut expected = answers.clone();
    let told = by_library(ours.lend().serve(pooled, tasks, slots, tag, &words, &mut answers));
    let opened = match pooled {
        true => theirs.lend().open_pooled(tasks, slots, tag),
        false => theirs.lend().open(tasks, slots, tag),
    };
    let served = by_reference(opened).map(|()| {
        let mut room = expected.chunks_exact_mut(3);
        let list = words.chunks_exact(5).zip(&mut room);
        list.map(|(request, to)| to.copy_from_slice(&asked(theirs, request))).count()
    });
    assert_eq!((told, answers), (served, expected));
}

/// What one request is answered, by the second program.
fn asked(tables: &mut Storage, words: &[u64]) -> [u64; 3] {
    let (task, side, slot, label) = (words[0], words[2], words[3], words[4] as u32);
    let mut lent = tables.lend();
    let answer = match words[1] {
        0 => lent.push(task, side, slot, label).map(|()| (1, 0, 1)),
        1 => lent.pop(task, side).map(|()| (1, 0, 1)),
        2 => lent.push_pooled(task, side, label).map(|()| (1, 0, 12)),
        _ => lent.step(task).map(moved),
    };
    match by_reference(answer) {
        Ok((code, label, value)) => [code.into(), label.into(), value],
        Err(number) => [number.into(), 0, 0],
    }
}

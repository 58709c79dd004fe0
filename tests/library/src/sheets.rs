//! Order sheets on queues of any shape, both calls on the same inputs: cycles, copies, labels that
//! don't wait, counts and places at and beyond their limits, damaged tables.

use crate::calls::called;
use crate::tally::Tally;
use crate::world::Export;
use reference::dice::Dice;
use reference::refusal::Refusal;
use reference::sheet::{self, Verdict};
use reference::tables::Storage;
use zeppolecape::{raw, rule};

/// A queue, a sheet, and the words lent.
#[derive(Clone)]
struct Case {
    tables: Storage,
    listed: Vec<u32>,
    rules: Vec<u32>,
    words: Vec<u32>,
}

/// Labels come from few, so that copies wait and listed ones are met.
fn label(dice: &mut Dice, kinds: u64) -> u32 {
    match dice.between(0, kinds) as u32 {
        0 => u32::MAX,
        kind => (kind - 1) * 3,
    }
}

/// A queue with some labels waiting, its slots in any order, and links that nobody follows at
/// random.
fn queue(dice: &mut Dice, kinds: u64) -> Storage {
    let most = dice.pick(&[1, 2, 8, 40, 64, 1_023]);
    let slots = dice.between(1, most);
    let mut tables = Storage::fitting(16, slots);
    let mut order: Vec<u64> = (1..=slots).collect();
    for at in (1..order.len()).rev() {
        order.swap(at, dice.between(0, at as u64) as usize);
    }
    order.truncate(dice.between(0, slots) as usize);
    for row in 0..=slots as usize {
        tables.labels[row] = label(dice, kinds);
        tables.lefts[row] = dice.throw();
        tables.rights[row] = dice.throw();
    }
    for pair in order.windows(2) {
        tables.lefts[pair[1] as usize] = dice.throw() << 32 | pair[0];
        tables.rights[pair[0] as usize] = dice.throw() << 32 | pair[1];
    }
    let status = match order.len() {
        0 | 1 => 0,
        _ => dice.between(0, 2),
    };
    if let [.., next, last] = order[..] {
        match status {
            1 => tables.rights[next as usize] = dice.throw(),
            2 => tables.lefts[order[1] as usize] = dice.throw(),
            _ => tables.rights[last as usize] = dice.throw(),
        }
    }
    let (left, right) = (order.first().unwrap_or(&0), order.last().unwrap_or(&0));
    tables.control.tasks = dice.between(1, 16);
    tables.control.slots = slots;
    tables.control.pooled = dice.between(0, 1);
    tables.control.anchor = dice.throw() << 32 | status << 30 | left << 15 | right;
    tables
}

fn draw(dice: &mut Dice) -> Case {
    let kinds = dice.pick(&[3, 12, 40, 60]);
    let tables = queue(dice, kinds);
    let want = dice.pick(&[0, 1, 2, 5, 31, 32, 33]);
    let mut listed: Vec<u32> = Vec::new();
    for _ in 0..want * 3 {
        let next = label(dice, kinds.max(want + 1));
        if listed.len() < want as usize && (!listed.contains(&next) || dice.percent(1)) {
            listed.push(next);
        }
    }
    let count = match dice.between(0, 9) {
        0..=5 => dice.between(0, listed.len() as u64),
        6 | 7 => dice.between(0, 40),
        _ => dice.pick(&[0, 127, 128, 129]),
    };
    let last = listed.len().max(1) as u64;
    let place = |dice: &mut Dice| match dice.between(0, 4_000) {
        0 => 0,
        1 => last + 1,
        2 => 65_536 + dice.between(1, last),
        _ => dice.between(1, last),
    };
    let rules = (0..count).map(|_| rule(place(dice), place(dice))).collect();
    let long = dice.pick(&[32, 32, 32, 33, 40, 31, 0]);
    let words = (0..long).map(|_| dice.throw() as u32).collect();
    Case { tables, listed, rules, words }
}

/// One table is damaged.
fn spoil(dice: &mut Dice, case: &mut Case) {
    let tables = &mut case.tables;
    let slots = tables.control.slots as usize;
    let row = dice.between(0, slots as u64) as usize;
    match dice.between(0, 12) {
        0 => tables.control.tasks = dice.between(0, 18),
        1 => {
            let any = dice.between(0, 1_030);
            tables.control.slots = dice.pick(&[0, 1_024, any]);
        }
        2 => tables.control.anchor = dice.throw(),
        3 => tables.control.anchor ^= 1 << dice.between(0, 31),
        4 => tables.lefts.truncate(row),
        5 => tables.marks.clear(),
        6 => tables.labels.truncate(row),
        7 => tables.rights.truncate(row),
        8 => tables.lefts[row] = dice.between(0, slots as u64 + 1),
        9 => {
            // The walk meets slot 0, whose links lead on.
            (tables.lefts[row], tables.rights[row]) = (0, 0);
            tables.lefts[0] = dice.between(1, slots as u64);
            tables.rights[0] = dice.between(1, slots as u64);
        }
        10 => tables.rights[row] ^= 1 << dice.between(0, 31),
        11 => tables.control.pooled = dice.pick(&[2, 1 << 32, u64::MAX]),
        _ => tables.lefts[row] ^= 1 << dice.between(0, 31),
    }
}

type Told = (u64, u64, u64);

fn told(answer: Result<Verdict, Refusal>) -> Told {
    match answer {
        Ok(Verdict::Kept) => (0, 0, 0),
        Ok(Verdict::Broken(first, second)) => (0, first as u64, second as u64),
        Err(refusal) => (u64::from(refusal.number()), 0, 0),
    }
}

fn reply(told: raw::SheetReply) -> Told {
    (told.code, told.first, told.second)
}

/// The library's two calls.
macro_rules! library {
    ($case:ident . $name:ident($($lent:expr),*)) => {
        reply(unsafe {
            called!($name(
                (&raw const $case.tables.control).cast(),
                $case.listed.as_ptr(),
                $case.listed.len(),
                $case.rules.as_ptr(),
                $case.rules.len(),
                $($lent,)*
                $case.tables.lefts.as_ptr(),
                $case.tables.lefts.len(),
                $case.tables.rights.as_ptr(),
                $case.tables.rights.len(),
                $case.tables.labels.as_ptr(),
                $case.tables.labels.len(),
                $case.tables.marks.as_ptr(),
                $case.tables.marks.len(),
            ))
        })
    };
}

pub fn sheets(tally: &mut Tally, dice: &mut Dice, times: u32) {
    let (mut broken, mut by_itself) = (0, 0);
    for _ in 0..times {
        let mut case = draw(dice);
        if dice.percent(20) {
            spoil(dice, &mut case);
        }
        let mut other = case.clone();
        let expected = told(sheet::sheet(&other.tables.lend().shared, &case.listed, &case.rules));
        let lent = other.tables.lend().shared;
        let printed = told(sheet::sheet_words(&lent, &case.listed, &case.rules, &mut other.words));
        let ours = library!(case.zc_sheet());
        let words = (case.words.as_mut_ptr(), case.words.len());
        let with_words = library!(case.zc_sheet_words(words.0, words.1));
        tally.answered(Export::Sheet, expected.0 as u32);
        tally.answered(Export::SheetWords, printed.0 as u32);
        broken += u32::from(expected.1 != expected.2);
        by_itself += u32::from(expected.1 == expected.2 && expected.1 != 0);
        if ours != expected || with_words != printed || case.words != other.words {
            tally.differs(|| {
                let asked = format!("sheet {:?} {:x?}", case.listed, case.rules);
                format!("{asked}: {ours:?}, expected {expected:?}; {with_words:?}, expected {printed:?}")
            });
        }
    }
    println!("broken by two labels {broken}, by a label chained to itself {by_itself}");
    tally.check(broken > 0 && by_itself > 0, "both ways to break a sheet");
    tally.check_reached(&[Export::Sheet, Export::SheetWords]);
}

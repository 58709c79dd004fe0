//! Random runs, one for each seed. A scenario decides who moves next and for how long.

use crate::dice::Dice;
use crate::machine::Moved;
use crate::refusal::LAST_START_TAG;
use crate::shift::{Crew, Shift};
use crate::tables::MOST_TASKS;
use crate::word::LAST_TAG;
use std::io::{self, Write};

struct Scenario {
    name: &'static str,
    write: fn(&mut Dice, Crew) -> Vec<u8>,
}

/// About how many events the run of a seed has.
const EVENTS: usize = 12_000;

/// In turn over the seeds; the starving ones come more often, they find the most.
const SCENARIOS: [Scenario; 11] = [
    Scenario { name: "crowd", write: crowd },
    Scenario { name: "starve", write: starve },
    Scenario { name: "bursts", write: bursts },
    Scenario { name: "starve few slots", write: starve_few_slots },
    Scenario { name: "turns", write: turns },
    Scenario { name: "starve one end", write: starve_one_end },
    Scenario { name: "wide", write: wide },
    Scenario { name: "starve few slots", write: starve_few_slots },
    Scenario { name: "worn tags", write: worn_tags },
    Scenario { name: "out of range", write: out_of_range },
    Scenario { name: "spoiled", write: spoiled },
];

/// The scenario of a seed and its run file. The number of tasks goes round with the seeds;
/// every second queue is pooled, of each size in turn.
pub fn of_seed(seed: u64) -> (&'static str, Vec<u8>) {
    let round = seed / SCENARIOS.len() as u64;
    let scenario = &SCENARIOS[(seed % SCENARIOS.len() as u64) as usize];
    let tasks = 1 + round % MOST_TASKS;
    let pooled = (round + round / MOST_TASKS) % 2 == 1;
    let crew = Crew { tasks: tasks as u8, pooled };
    (scenario.name, (scenario.write)(&mut Dice::new(seed), crew))
}

/// The names of all scenarios.
pub fn names() -> impl Iterator<Item = &'static str> {
    SCENARIOS.iter().map(|scenario| scenario.name)
}

/// A tag with room for the run, near 0 half the time.
fn low_tag(dice: &mut Dice) -> u32 {
    match dice.between(0, 3) {
        0 | 1 => dice.between(0, 3) as u32,
        2 => dice.throw() as u32 >> 8,
        _ => dice.between(0, LAST_START_TAG - (1 << 20)) as u32,
    }
}

/// Any task acts next.
fn crowd(dice: &mut Dice, crew: Crew) -> Vec<u8> {
    let slots = dice.pick(&[1, 2, 3, 5, 8, 17, 40]);
    let tag = low_tag(dice);
    let mut shift = Shift::open(dice, crew, slots, tag);
    for _ in 0..EVENTS {
        let task = shift.anyone();
        shift.act(task);
    }
    shift.script.finish()
}

/// One task acts for a long while, then another.
fn bursts(dice: &mut Dice, crew: Crew) -> Vec<u8> {
    let slots = dice.between(1, 64) as u16;
    let tag = low_tag(dice);
    let mut shift = Shift::open(dice, crew, slots, tag);
    let mut left = EVENTS;
    while left > 0 {
        let task = shift.anyone();
        let length = shift.dice.pick(&[1, 3, 12, 100, 600]).min(left);
        (0..length).for_each(|_| shift.act(task));
        left -= length;
    }
    shift.script.finish()
}

/// All tasks in turn, now and then one misses its turn.
fn turns(dice: &mut Dice, crew: Crew) -> Vec<u8> {
    let crew = crew.clamp(2, 8);
    let slots = dice.between(2, 9) as u16;
    let tag = low_tag(dice);
    let mut shift = Shift::open(dice, crew, slots, tag);
    for turn in 0..EVENTS {
        if !shift.dice.percent(5) {
            shift.act((turn % usize::from(crew.tasks)) as u8);
        }
    }
    shift.script.finish()
}

fn starve(dice: &mut Dice, crew: Crew) -> Vec<u8> {
    let slots = dice.between(2, 7) as u16;
    let tag = low_tag(dice);
    starve_in(Shift::open(dice, crew.clamp(2, 6), slots, tag))
}

/// Three slots or so: the slots that a stopped task has read are used again.
fn starve_few_slots(dice: &mut Dice, crew: Crew) -> Vec<u8> {
    let crew = Crew { tasks: 2 + crew.tasks % 2, ..crew };
    let slots = dice.between(2, 3) as u16;
    let mut shift = Shift::open(dice, crew, slots, 0);
    shift.pops = 50;
    shift.lefts = 50;
    shift.out_of_range = 0;
    starve_in(shift)
}

/// Nearly everything happens at one end, left or right.
fn starve_one_end(dice: &mut Dice, crew: Crew) -> Vec<u8> {
    let slots = dice.between(3, 5) as u16;
    let mut shift = Shift::open(dice, crew.clamp(2, 4), slots, 0);
    shift.lefts = shift.dice.pick(&[5, 95]);
    starve_in(shift)
}

/// A task is brought to some place and left there; the others go on; then it goes on too.
fn starve_in(mut shift: Shift) -> Vec<u8> {
    let mut asleep = 0;
    while asleep < EVENTS {
        let victim = shift.anyone();
        let place = match shift.pooled && shift.dice.percent(40) {
            false => shift.dice.pick(&[2, 4, 4, 6, 7, 7, 8, 9, 9, 9, 10, 11]),
            true => shift.dice.pick(&[1, 11, 12, 13, 14, 14, 15, 16, 17, 17]),
        };
        shift.bring_to(victim, place);
        let nap = shift.dice.pick(&[2, 8, 20, 40, 60, 90]) as usize;
        for _ in 0..nap {
            let other = shift.anyone_but(victim);
            shift.act(other);
        }
        let awake = shift.dice.between(1, 5);
        (0..awake).for_each(|_| shift.act(victim));
        asleep += nap + 20;
    }
    shift.script.finish()
}

/// Many slots: the queue fills, is emptied, and fills again.
fn wide(dice: &mut Dice, crew: Crew) -> Vec<u8> {
    let slots = match dice.between(0, 3) {
        0 => 1_023,
        1 => dice.pick(&[63, 64, 65, 127, 128]),
        _ => dice.between(65, 1_022) as u16,
    };
    let tag = low_tag(dice);
    let mut shift = Shift::open(dice, crew, slots, tag);
    for event in 0..EVENTS / 4 {
        if event % (EVENTS / 16) == 0 {
            shift.pops = if shift.pops < 50 { 90 } else { 15 };
        }
        let task = shift.anyone();
        shift.act(task);
    }
    shift.script.finish()
}

/// Tags at the end of their range: starts are refused 33 and the busy run out.
fn worn_tags(dice: &mut Dice, crew: Crew) -> Vec<u8> {
    let slots = dice.between(1, 20) as u16;
    let tag = match dice.between(0, 4) {
        0 => LAST_START_TAG,
        1 => dice.between(LAST_START_TAG + 1, LAST_TAG),
        _ => LAST_START_TAG - dice.between(0, 40),
    };
    let mut shift = Shift::open(dice, crew, slots, tag as u32);
    for _ in 0..EVENTS / 20 {
        let task = shift.anyone();
        shift.act(task);
    }
    shift.script.finish()
}

/// Every second call is near the limits or beyond them.
fn out_of_range(dice: &mut Dice, crew: Crew) -> Vec<u8> {
    let slots = dice.pick(&[1, 2, 4, 64, 1_023]);
    let tag = low_tag(dice);
    let mut shift = Shift::open(dice, crew, slots, tag);
    shift.out_of_range = 50;
    for _ in 0..EVENTS / 4 {
        let task = shift.anyone();
        shift.act(task);
    }
    shift.script.finish()
}

/// A short run with a few bytes written over, or its end torn off.
fn spoiled(dice: &mut Dice, crew: Crew) -> Vec<u8> {
    let mut shift = Shift::open(dice, crew, 3, 0);
    for _ in 0..100 {
        let task = shift.anyone();
        shift.act(task);
    }
    let mut file = shift.script.finish();
    for _ in 0..dice.between(0, 2) {
        let place = dice.throw() as usize % file.len();
        file[place] = dice.pick(&[0, 1, 2, 3, 4, 5, 6, 7, 255]);
    }
    if dice.percent(50) {
        file.truncate(dice.throw() as usize % file.len());
    }
    file
}

/// A steady load for measuring: eight tasks, 256 slots, any busy task moves next, and the
/// queue stays about half full.
pub fn load(dice: &mut Dice, steps: usize) -> Vec<u8> {
    let mut file = Vec::new();
    write_load(dice, steps, &mut file).expect("memory");
    file
}

/// The same, written as it grows: a load of any length takes little memory.
pub fn write_load(dice: &mut Dice, steps: usize, out: &mut impl Write) -> io::Result<()> {
    const SLOTS: u16 = 256;
    const PIECE: usize = 1 << 16;
    let mut shift = Shift::open(dice, Crew { tasks: 8, pooled: false }, SLOTS, 0);
    shift.out_of_range = 0;
    shift.lefts = 50;
    let mut waiting = 0_i32;
    let mut left = steps;
    while left > 0 {
        let task = shift.anyone();
        if shift.script.is_idle(task) {
            shift.pops = if waiting > i32::from(SLOTS / 2) { 60 } else { 40 };
            shift.act(task);
            shift.script.write_beyond(PIECE, out)?;
            continue;
        }
        left -= 1;
        match shift.script.step(task) {
            Ok(Moved::Pushed) => waiting += 1,
            Ok(Moved::Popped { .. }) => waiting -= 1,
            _ => {}
        }
    }
    out.write_all(&shift.script.finish())
}

//! Lists carried out in one call: the library against the second program, which is asked for one thing
//! after the other. Junk in the tables before the opening, openings refused, any operation and any
//! numbers, words that make up no request, too little room for the answers.

use crate::calls::called;
use crate::line::common_label;
use crate::tally::Tally;
use crate::theirs::by_reference;
use crate::wild::{wild, wild_control, wild_record, wild_word};
use crate::world::{difference, Call, Export, Lent, Told, World};
use reference::dice::Dice;
use std::collections::BTreeSet;
use zeppolecape::raw;

/// What is asked for beside the tables.
struct Asked {
    pooled: u64,
    tasks: u64,
    slots: u64,
    tag: u32,
    requests: Lent<u64>,
    replies: Lent<u64>,
}

fn rows<T>(dice: &mut Dice, needed: u64, mut any: impl FnMut(&mut Dice) -> T) -> Lent<T> {
    let held = (0..needed + 2).map(|_| any(dice)).collect();
    let short = dice.percent(2);
    let count = if short { dice.between(0, needed) } else { needed + dice.between(0, 2) };
    Lent { held, count: count as usize, null: dice.percent(50) }
}

/// Tables of any contents, mostly long enough for an opening.
fn unopened(dice: &mut Dice, tasks: u64, slots: u64) -> World {
    let (tasks, slots) = (tasks.min(16), slots.min(1_023));
    World {
        control: wild_control(dice),
        records: rows(dice, tasks, wild_record),
        one: wild_record(dice),
        lefts: rows(dice, slots + 1, |dice| wild_word(dice, slots)),
        rights: rows(dice, slots + 1, |dice| wild_word(dice, slots)),
        labels: rows(dice, slots + 1, |dice| dice.throw() as u32),
        marks: rows(dice, slots / 64 + 1, Dice::throw),
        next: rows(dice, slots + 1, |dice| wild(dice, slots)),
        slots_out: Lent::new(vec![], 0),
        labels_out: Lent::new(vec![], 0),
    }
}

/// Five words; most ask for what the queue can do.
fn request(dice: &mut Dice, tasks: u64, slots: u64, pooled: bool) -> [u64; 5] {
    let strange = dice.percent(5);
    let start = if pooled { 2 } else { 0 };
    let operation = match dice.between(0, 9) {
        0 | 1 => start,
        2 => 1,
        3 if strange => dice.pick(&[0, 1, 2, 4, 1 << 32, u64::MAX]),
        _ => 3,
    };
    let task = if strange { wild(dice, tasks) } else { dice.between(0, tasks - 1) };
    let side = if strange { wild(dice, 1) } else { dice.between(0, 1) };
    let slot = if strange { wild(dice, slots) } else { dice.between(1, slots) };
    let label = u64::from(common_label(dice));
    let upper = if dice.percent(20) { dice.throw() << 32 } else { 0 };
    let high = if dice.percent(20) { 1 << 31 } else { 0 };
    [task, operation, side, slot, label | high | upper]
}

fn draw(dice: &mut Dice) -> Asked {
    let few = dice.percent(70);
    let (mut tasks, mut slots) =
        (dice.pick(&[1, 2, 3, 5, 16]), dice.pick(&[1, 2, 3, 8, 63, 64, 65]));
    if !few {
        slots = dice.pick(&[100, 1_023]);
    }
    let pooled = dice.pick(&[0, 0, 0, 1, 1, 2, u64::MAX]);
    let asked = dice.pick(&[0, 1, 2, 30, 300]);
    let mut words: Vec<u64> = Vec::new();
    for _ in 0..dice.between(0, asked) {
        words.extend(request(dice, tasks, slots, pooled != 0));
    }
    let whole = words.len();
    words.extend((0..dice.between(0, 9)).map(|_| dice.between(0, 3)));
    let count = if dice.percent(60) { whole } else { dice.between(0, words.len() as u64) as usize };
    let room = 3 * (whole / 5) + 4;
    let room_lent = if dice.percent(60) { room } else { dice.between(0, room as u64) as usize };
    let replies = Lent { held: vec![77; room], count: room_lent, null: dice.percent(50) };
    if dice.percent(4) {
        tasks = dice.pick(&[0, 17, 1 << 32, u64::MAX]);
    }
    if dice.percent(4) {
        slots = dice.pick(&[0, 1_024, 1 << 32, u64::MAX]);
    }
    let requests = Lent { held: words, count, null: dice.percent(50) };
    let any = dice.throw() as u32;
    let tag = dice.pick(&[0, any, any, 4_294_967_240, 4_294_967_262, u32::MAX]);
    Asked { pooled, tasks, slots, tag, requests, replies }
}

fn by_library(world: &mut World, asked: &mut Asked) -> (u64, u64) {
    // SAFETY: every pointer goes with its count.
    let reply = unsafe {
        called!(zc_serve(
            (&raw mut world.control).cast(),
            world.records.pointer().cast(),
            world.records.count,
            asked.pooled,
            asked.tasks,
            asked.slots,
            asked.tag,
            asked.requests.pointer(),
            asked.requests.count,
            asked.replies.pointer(),
            asked.replies.count,
            world.lefts.pointer(),
            world.lefts.count,
            world.rights.pointer(),
            world.rights.count,
            world.labels.pointer(),
            world.labels.count,
            world.marks.pointer(),
            world.marks.count,
            world.next.pointer(),
            world.next.count,
        ))
    };
    (reply.code, reply.served)
}

/// The request that five words are.
fn call_of(words: &[u64]) -> Call {
    let (task, side, label) = (words[0] as usize, words[2], words[4] as u32);
    match words[1] {
        0 => Call::Push { task, side, slot: words[3], label },
        1 => Call::Pop { task, side },
        2 => Call::PushPooled { task, side, label },
        _ => Call::Step { task },
    }
}

/// What the second program answers, one request after the other: the opening, and the answers.
fn by_calls(world: &mut World, asked: &Asked) -> (u64, Vec<[u64; 3]>) {
    let Asked { pooled, tasks, slots, tag, .. } = *asked;
    let opening = match pooled {
        0 => Call::Open { tasks, slots, tag },
        _ => Call::OpenPooled { tasks, slots, tag },
    };
    let code = u64::from(by_reference(world, opening).code());
    let mut answers = Vec::new();
    if code == 0 {
        let words = &asked.requests.held[..asked.requests.count];
        for words in words.chunks_exact(5).take(asked.replies.count / 3) {
            let Told::Reply(code, label, value) = by_reference(world, call_of(words)) else {
                unreachable!()
            };
            answers.push([code.into(), label.into(), value]);
        }
    }
    (code, answers)
}

/// What differs between the two, if anything does.
fn compare(tally: &mut Tally, dice: &mut Dice, reached: &mut BTreeSet<u64>) -> Option<String> {
    let mut asked = draw(dice);
    let mut ours = unopened(dice, asked.tasks, asked.slots);
    let mut theirs = ours.clone();
    let mut expected = asked.replies.held.clone();
    let (code, answers) = by_calls(&mut theirs, &asked);
    for (to, answer) in expected.chunks_exact_mut(3).zip(&answers) {
        to.copy_from_slice(answer);
    }
    tally.answered(Export::Serve, code as u32);
    reached.extend(answers.iter().map(|answer| answer[0]));
    let told = by_library(&mut ours, &mut asked);
    if told != (code, answers.len() as u64) {
        return Some(format!("answer {told:?}, expected {code} and {}", answers.len()));
    }
    if asked.replies.held != expected {
        return Some(format!("replies {:?}, expected {expected:?}", asked.replies.held));
    }
    difference(&ours, &theirs)
}

pub fn serves(tally: &mut Tally, dice: &mut Dice, rounds: u32) {
    let mut reached = BTreeSet::new();
    for _ in 0..rounds {
        if let Some(complaint) = compare(tally, dice, &mut reached) {
            tally.differs(|| format!("zc_serve: {complaint}"));
        }
    }
    println!("requests carried out were answered {reached:?}");
    // Every answer of every start and step but 12 and 34, which an opened queue never gives.
    let wanted = [1, 2, 3, 4, 5, 13, 14, 15, 30, 31, 32, 33, 41];
    tally.check(reached == wanted.into(), "answers of the requests");
    tally.check_reached(&[Export::Serve]);
}

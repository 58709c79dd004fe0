//! Tables of any contents: sound scenes with several fields spoiled at random, nothing expected
//! but that both sides do the same.

use crate::sound::{Scene, Wanted};
use crate::tally::Tally;
use crate::wild::{wild, wild_record, wild_word};
use crate::world::{Call, Export, Lent};
use reference::dice::Dice;

fn spoil_count<T>(dice: &mut Dice, table: &mut Lent<T>) {
    if dice.percent(3) {
        table.count = dice.between(0, table.held.len() as u64) as usize;
        table.null = dice.percent(50);
    }
}

fn spoil_control(dice: &mut Dice, scene: &mut Scene) {
    let control = &mut scene.world.control;
    match dice.between(0, 43) {
        0 => control.tasks = wild(dice, 16),
        1 => control.slots = wild(dice, scene.slots),
        2..=4 => control.anchor = wild_word(dice, scene.slots),
        5 => control.pooled = wild(dice, 1),
        6..=8 => control.head = wild_word(dice, scene.slots),
        _ => {}
    }
}

fn spoil_record(dice: &mut Dice, scene: &mut Scene) {
    let slots = scene.slots;
    let (anchor, random) = (scene.world.control.anchor, wild_record(dice));
    let head = scene.world.control.head;
    let word = wild_word(dice, slots);
    let small = wild(dice, slots);
    let record = scene.record();
    match dice.between(0, 23) {
        0 => *record = random,
        1 => record.place = random.place,
        2 => record.kind = random.kind,
        3 => record.side = random.side,
        4 => record.own = small,
        5 => record.seen = word,
        6 => record.neighbour = small,
        7 => record.link = word,
        8 => record.finishing = random.finishing,
        9..=12 => record.seen = anchor,
        13..=15 => record.link = head,
        _ => {}
    }
}

fn spoil_rows(dice: &mut Dice, scene: &mut Scene) {
    if dice.percent(30) {
        let last = scene.slots as usize;
        for row in 0..=last.min(70) {
            if dice.percent(30) {
                scene.world.lefts.held[row] = wild_word(dice, scene.slots);
                scene.world.rights.held[row] = wild_word(dice, scene.slots);
                scene.world.next.held[row] = wild(dice, scene.slots);
            }
        }
    }
}

fn spoil_arguments(dice: &mut Dice, scene: &mut Scene) {
    if dice.percent(80) {
        return;
    }
    let (most_tasks, most_slots) = (scene.tasks, scene.slots);
    match &mut scene.call {
        Call::Open { tasks, slots, .. } | Call::OpenPooled { tasks, slots, .. } => {
            (*tasks, *slots) = (wild(dice, most_tasks), wild(dice, most_slots));
        }
        Call::Push { task, side, slot, .. } => {
            (*side, *slot) = (wild(dice, 1), wild(dice, most_slots));
            *task = wild(dice, most_tasks) as usize;
        }
        Call::Pop { task, side } | Call::PushPooled { task, side, .. } => {
            (*task, *side) = (wild(dice, most_tasks) as usize, wild(dice, 1));
        }
        Call::Step { task } | Call::Run { task, .. } => *task = wild(dice, most_tasks) as usize,
        Call::Find { count, .. } => *count = dice.between(0, 33) as usize,
        Call::StepRecord | Call::StepRow { .. } | Call::Report | Call::Waiting => {}
    }
}

pub fn noise(tally: &mut Tally, dice: &mut Dice, scenes: u32) {
    let before = tally.mismatches;
    for _ in 0..scenes {
        let export = match dice.between(0, 17) {
            0 => Export::Open,
            1 => Export::OpenPooled,
            2 => Export::Push,
            3 => Export::PushPooled,
            4 => Export::Pop,
            5..=8 => Export::Step,
            9 => Export::Run,
            10..=12 => Export::StepRecord,
            13 => Export::Report,
            14 | 15 => Export::Find,
            _ => Export::Waiting,
        };
        let mut scene = Scene::draw(dice, Wanted::any(export), 1);
        if let Call::Run { most, .. } = &mut scene.call {
            *most = dice.pick(&[0, 1, 2, 25]);
        }
        spoil_control(dice, &mut scene);
        spoil_record(dice, &mut scene);
        spoil_rows(dice, &mut scene);
        spoil_count(dice, &mut scene.world.lefts);
        spoil_count(dice, &mut scene.world.rights);
        spoil_count(dice, &mut scene.world.labels);
        spoil_count(dice, &mut scene.world.marks);
        spoil_count(dice, &mut scene.world.next);
        spoil_count(dice, &mut scene.world.records);
        spoil_count(dice, &mut scene.world.slots_out);
        spoil_count(dice, &mut scene.world.labels_out);
        spoil_arguments(dice, &mut scene);
        let (mut ours, mut theirs) = (scene.world.clone(), scene.world);
        tally.compare(&mut ours, &mut theirs, scene.call);
    }
    tally.check(tally.mismatches == before, "tables of any contents");
}

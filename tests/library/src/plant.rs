//! Faults planted alone and in pairs: of two, the one that is asked for first decides. And changes
//! that fail at the last tag, which are no faults.

use crate::faults::{self, outrun, Fault, Group};
use crate::sound::{Scene, Wanted};
use crate::tally::Tally;
use crate::theirs::by_reference;
use crate::world::Export;
use reference::dice::Dice;
use reference::tables::{POP, PUSH};
use zeppolecape::MOST_RETRIES;

pub const EXPORTS: [Export; 11] = [
    Export::Open,
    Export::OpenPooled,
    Export::Push,
    Export::PushPooled,
    Export::Pop,
    Export::Step,
    Export::Run,
    Export::StepRecord,
    Export::Report,
    Export::Find,
    Export::Waiting,
];

/// A scene in which a fault may be planted.
fn wanted(export: Export, fault: &Fault) -> Wanted {
    Wanted { export, pooled: fault.pooled, place: fault.place, kind: fault.kind }
}

/// A scene without a fault, which must be accepted.
fn accepted_scene(tally: &mut Tally, dice: &mut Dice, wanted: Wanted, least: u64) -> Scene {
    let scene = Scene::draw(dice, wanted, least);
    let (mut ours, mut theirs) = (scene.world.clone(), scene.world.clone());
    if let Some(told) = tally.compare(&mut ours, &mut theirs, scene.call) {
        assert!(told.code() < 10, "the scene itself was refused: {wanted:?}, {told:?}");
    }
    scene
}

/// Whether both sides refuse with this number and leave everything.
fn refuses(tally: &mut Tally, scene: &Scene, number: u32) -> bool {
    let (mut ours, mut theirs) = (scene.world.clone(), scene.world.clone());
    let told = tally.compare(&mut ours, &mut theirs, scene.call);
    told.is_some_and(|told| told.code() == number) && ours == scene.world
}

/// Whether a step's change fails on both sides: its record counts it, and no shared word moves.
fn fails(tally: &mut Tally, scene: &mut Scene) -> bool {
    let retries = scene.record().retries;
    let before = scene.world.clone();
    let (mut ours, mut theirs) = (before.clone(), before.clone());
    let told = tally.compare(&mut ours, &mut theirs, scene.call);
    scene.world = ours;
    let after = scene.record().retries;
    let ours = &scene.world;
    told.is_some_and(|told| told.code() < 10)
        && after == retries + u64::from(retries < MOST_RETRIES)
        && (ours.control == before.control && ours.next == before.next)
        && (ours.lefts == before.lefts && ours.rights == before.rights)
        && (ours.labels == before.labels && ours.marks == before.marks)
}

/// The changes: place, kind, and the slots that a scene has at least.
const CHANGES: [(u64, u64, u64); 10] = [
    (2, PUSH, 1),
    (2, POP, 1),
    (4, PUSH, 1),
    (4, POP, 1),
    (9, PUSH, 2),
    (9, POP, 2),
    (10, PUSH, 2),
    (10, POP, 2),
    (14, PUSH, 1),
    (17, POP, 1),
];

/// Changes of Anchor, of a link and of the head that fail at the last tag.
pub fn failures(tally: &mut Tally, dice: &mut Dice, times: u32) {
    for export in [Export::Step, Export::Run, Export::StepRecord] {
        for (place, kind, least) in CHANGES {
            let wanted = Wanted { export, pooled: None, place: Some(place), kind: Some(kind) };
            let mut holds = true;
            for _ in 0..times {
                let mut scene = Scene::draw(dice, wanted, least);
                outrun(&mut scene, dice);
                holds &= fails(tally, &mut scene);
            }
            let name = if kind == PUSH { "push" } else { "pop" };
            let what = format!("{export:?}: {place}: a {name} outrun at the last tag fails");
            tally.check(holds, &what);
        }
    }
}

/// A named queue is accepted with any next table, or none at all.
fn accepted_without_next(tally: &mut Tally, dice: &mut Dice, mut scene: Scene) {
    let export = scene.call.export();
    if export == Export::OpenPooled || (export != Export::Open && scene.is_pooled()) {
        return;
    }
    scene.world.next.count = dice.between(0, scene.slots) as usize;
    scene.world.next.null = scene.world.next.count == 0;
    let (mut ours, mut theirs) = (scene.world.clone(), scene.world);
    if let Some(told) = tally.compare(&mut ours, &mut theirs, scene.call) {
        assert!(told.code() < 10, "{:?} was refused for its next table", scene.call);
    }
}

pub fn accepted(tally: &mut Tally, dice: &mut Dice, times: u32) {
    for export in EXPORTS {
        let before = tally.mismatches;
        for _ in 0..times {
            let scene = accepted_scene(tally, dice, Wanted::any(export), 1);
            accepted_without_next(tally, dice, scene);
        }
        tally.check(tally.mismatches == before, &format!("{export:?}: accepted scenes"));
    }
}

pub fn singles(tally: &mut Tally, dice: &mut Dice, times: u32) {
    for export in EXPORTS {
        for fault in faults::all().filter(|fault| fault.of(export)) {
            let mut holds = true;
            for _ in 0..times {
                let wanted = wanted(export, fault);
                let mut scene = accepted_scene(tally, dice, wanted, fault.least);
                (fault.plant)(&mut scene, dice);
                holds &= refuses(tally, &scene, fault.group.number());
            }
            let number = fault.group.number();
            tally.check(holds, &format!("{export:?}: {} is {number}", fault.name));
        }
    }
}

/// A record cannot be busy and idle; a fault at a place needs its record as it is. Both need the
/// same way of opening; a short next table is no fault where a wrong push has turned it.
fn together(first: &Fault, second: &Fault) -> bool {
    let records = [Group::Record, Group::Busy, Group::Idle, Group::Touch];
    let way = second.place.filter(|&place| place > 11).map_or(second.pooled, |_| Some(true));
    let turned = first.name == "short next" && second.group == Group::WrongPush;
    first.group < second.group
        && first.group.number() != second.group.number()
        && !(records.contains(&first.group) && records.contains(&second.group))
        && (first.pooled.is_none() || way.is_none() || first.pooled == way)
        && !turned
}

/// A scene in which both faults may be planted; the second decides where the step stands.
fn wanted_pair(export: Export, first: &Fault, second: &Fault) -> Wanted {
    Wanted { pooled: first.pooled.or(second.pooled), ..wanted(export, second) }
}

pub fn pairs(tally: &mut Tally, dice: &mut Dice, times: u32) {
    for export in EXPORTS {
        for first in faults::all().filter(|fault| fault.of(export)) {
            let mut holds = true;
            let mut planted = false;
            for second in faults::all().filter(|second| second.of(export)) {
                if !together(first, second) {
                    continue;
                }
                planted = true;
                for _ in 0..times {
                    let wanted = wanted_pair(export, first, second);
                    let mut scene = Scene::draw(dice, wanted, first.least.max(second.least));
                    (second.plant)(&mut scene, dice);
                    let alone = by_reference(&mut scene.world.clone(), scene.call).code();
                    assert_eq!(alone, second.group.number(), "{export:?}: {}", second.name);
                    (first.plant)(&mut scene, dice);
                    holds &= refuses(tally, &scene, first.group.number());
                }
            }
            if planted {
                tally.check(holds, &format!("{export:?}: {} is asked for first", first.name));
            }
        }
    }
}

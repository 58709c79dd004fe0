//! Every way to be refused, one entry each: planted in a scene that was accepted, it alone decides.

mod asked;
mod record;
mod touch;
mod walk;

use crate::records::{any_place, busy_record};
use crate::sound::Scene;
use crate::world::Export;
use reference::dice::Dice;
use reference::tables::PUSH;
use reference::word::Anchor;

pub use touch::outrun;

const LAST_TAG: u64 = 0xffff_ffff;
const HIGH: u64 = 1 << 32; // lost in a number of 32 bits

/// The order in which a call asks: document 01, below "Refused because of the state"; document 02,
/// #102, #104 and #110.
#[derive(Clone, Copy, Debug, PartialEq, Eq, PartialOrd, Ord)]
pub enum Group {
    Tasks,
    Slots,
    Control,
    Many,
    Short,
    Task,
    Side,
    WrongPush,
    Slot,
    Record,
    Busy,
    Idle,
    Taken,
    Worn,
    Touch,
    Walk,
    Room,
}

impl Group {
    pub fn number(self) -> u32 {
        match self {
            Group::Tasks => 10,
            Group::Slots => 11,
            Group::Many => 45,
            Group::Short | Group::Room => 12,
            Group::Task => 13,
            Group::Side => 14,
            Group::Slot => 15,
            Group::Busy => 30,
            Group::Idle => 31,
            Group::Taken => 32,
            Group::Worn => 33,
            Group::WrongPush => 41,
            Group::Control | Group::Record | Group::Touch | Group::Walk => 34,
        }
    }

    pub fn of(self, export: Export) -> bool {
        use Export::*;
        let exports: &[Export] = match self {
            Group::Tasks | Group::Slots => &[Open, OpenPooled],
            Group::Control => {
                &[Push, PushPooled, Pop, Step, Run, StepRecord, Report, Find, Waiting]
            }
            Group::Many => &[Find],
            Group::Short => return true,
            Group::Task => &[Push, PushPooled, Pop, Step, Run],
            Group::Side | Group::Busy | Group::Worn => &[Push, PushPooled, Pop],
            Group::WrongPush => &[Push, PushPooled],
            Group::Slot | Group::Taken => &[Push],
            Group::Record => &[Push, PushPooled, Pop, Step, Run, StepRecord],
            Group::Idle | Group::Touch => &[Step, Run, StepRecord],
            Group::Walk => &[Report, Find, Waiting],
            Group::Room => &[Waiting],
        };
        exports.contains(&export)
    }
}

pub struct Fault {
    pub name: &'static str,
    pub group: Group,
    /// Where a step must stand for it, and of which kind; none: anywhere.
    pub place: Option<u64>,
    pub kind: Option<u64>,
    /// The way of opening that it needs; none: either.
    pub pooled: Option<bool>,
    /// The slots that its scene has at least.
    pub least: u64,
    pub plant: fn(&mut Scene, &mut Dice),
}

impl Fault {
    /// 12 looks at no records where one is lent alone, or none, and at no next table where it is
    /// not lent. A fault of one way of opening is none in a push of the other.
    pub fn of(&self, export: Export) -> bool {
        let way = match export {
            Export::Open | Export::Push => Some(false),
            Export::OpenPooled | Export::PushPooled => Some(true),
            _ => None,
        };
        let fits = self.pooled.is_none() || way.is_none() || self.pooled == way;
        let seen = match self.name {
            "short records" => {
                !matches!(export, Export::StepRecord | Export::Find | Export::Waiting)
            }
            "short next" => !matches!(export, Export::Find | Export::Waiting),
            SHORT_IN_A_WRONG_PUSH => export == Export::Push,
            _ => true,
        };
        self.group.of(export) && fits && seen
    }
}

/// A pooled queue's next table too short for a push that names a slot: 12, not 41.
const SHORT_IN_A_WRONG_PUSH: &str = "short next in a pooled queue";

const fn fault(group: Group, name: &'static str, plant: fn(&mut Scene, &mut Dice)) -> Fault {
    Fault { name, group, place: None, kind: None, pooled: None, least: 1, plant }
}

const fn at(place: u64, kind: u64, name: &'static str, plant: fn(&mut Scene, &mut Dice)) -> Fault {
    let least = if place >= 5 && place <= 10 { 2 } else { 1 };
    let (place, kind) = (Some(place), Some(kind));
    Fault { name, group: Group::Touch, place, kind, pooled: None, least, plant }
}

/// A fault of a pooled queue, or of one with named slots.
const fn pooled(fault: Fault) -> Fault {
    Fault { pooled: Some(true), ..fault }
}

const fn named(fault: Fault) -> Fault {
    Fault { pooled: Some(false), ..fault }
}

/// A fault with an unstable Anchor that is sound: its ends are two slots.
const fn unstable(fault: Fault) -> Fault {
    Fault { least: 2, ..fault }
}

/// Of all groups, in no order that matters.
pub fn all() -> impl Iterator<Item = &'static Fault> {
    let parts = [asked::FAULTS, record::FAULTS, touch::FAULTS, walk::FAULTS];
    parts.into_iter().flatten()
}

/// Another Anchor in control.
fn anchor(scene: &mut Scene, edit: impl Fn(&mut Anchor)) {
    let mut anchor = Anchor::unpack(scene.world.control.anchor);
    edit(&mut anchor);
    scene.world.control.anchor = anchor.pack();
}

/// A busy record to be damaged: a start's task is made busy first.
fn busy(scene: &mut Scene, dice: &mut Dice, place: Option<u64>, kind: Option<u64>) {
    let kind = kind.unwrap_or_else(|| dice.between(0, 1));
    let place = place.unwrap_or_else(|| match scene.is_pooled() && dice.percent(30) {
        false => any_place(dice, scene.slots, 10),
        true if kind == PUSH => dice.between(12, 14),
        true => dice.between(15, 17),
    });
    let record = busy_record(dice, scene.slots, place, kind);
    *scene.record() = record;
}

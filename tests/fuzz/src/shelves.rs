//! The two calls on lent shelves.

use crate::bytes::Bytes;
use crate::ours::{by_library, by_reference, control, record, Ours};
use crate::scene;
use reference::shelf::{self, Rack};
use reference::tables::Storage;
use zeppolecape::ShelfTables;

/// Shelves on which a queue may lie already.
fn rack(bytes: &mut Bytes, shelf: u64) -> Rack {
    let mut rack = Rack::fitting(bytes.pick(&[3, 16, 1]), bytes.pick(&[8, 130, 1_023, 2]));
    if bytes.below(4) > 0 {
        let mut saved = scene::tables(bytes);
        let _ = shelf::save(&saved.lend(), &mut rack, shelf);
    }
    match bytes.below(9) {
        0 => rack.controls.truncate(bytes.below(9) as usize),
        1 => rack.records.truncate(bytes.below(130) as usize),
        2 => rack.lefts.truncate(bytes.below(1_100) as usize),
        3 => rack.marks.truncate(bytes.below(20) as usize),
        4 => rack.next.truncate(bytes.below(1_100) as usize),
        5 => rack.controls.iter_mut().for_each(|control| control.slots = bytes.near(1_023)),
        _ => {}
    }
    rack
}

/// The crate's side of the shelves, for the time of a call.
struct Shelves {
    controls: Vec<zeppolecape::Control>,
    records: Vec<zeppolecape::Record>,
}

impl Shelves {
    fn of(rack: &Rack) -> Shelves {
        let records = rack.records.iter().map(record).collect();
        Shelves { controls: rack.controls.iter().map(control).collect(), records }
    }

    fn lend<'a>(&'a mut self, rack: &'a mut Rack) -> ShelfTables<'a> {
        ShelfTables {
            controls: &mut self.controls,
            records: &mut self.records,
            lefts: &mut rack.lefts,
            rights: &mut rack.rights,
            labels: &mut rack.labels,
            marks: &mut rack.marks,
            next: &mut rack.next,
        }
    }

    fn check(&self, ours: &Rack, theirs: &Rack) {
        let expected = Shelves::of(theirs);
        assert_eq!(self.controls, expected.controls, "shelves: controls");
        assert_eq!(self.records, expected.records, "shelves: records");
        let tables = |rack: &Rack| {
            [rack.lefts.clone(), rack.rights.clone(), rack.marks.clone(), rack.next.clone()]
        };
        assert_eq!(tables(ours), tables(theirs), "shelves: rows");
        assert_eq!(ours.labels, theirs.labels, "shelves: labels");
    }
}

pub fn save(bytes: &mut Bytes, ours: &mut Ours, theirs: &mut Storage) {
    let shelf = bytes.near(7);
    let mut two = rack(bytes, shelf);
    let mut one = two.clone();
    let mut shelves = Shelves::of(&one);
    let told = by_library(ours.lend().save(&mut shelves.lend(&mut one), shelf));
    assert_eq!(told, by_reference(shelf::save(&theirs.lend(), &mut two, shelf)));
    shelves.check(&one, &two);
}

pub fn return_to(bytes: &mut Bytes, ours: &mut Ours, theirs: &mut Storage) {
    let shelf = bytes.near(7);
    let mut two = rack(bytes, shelf);
    let mut one = two.clone();
    let mut shelves = Shelves::of(&one);
    let told = by_library(ours.lend().return_to(&shelves.lend(&mut one), shelf));
    assert_eq!(told, by_reference(shelf::put_back(&mut theirs.lend(), &mut two, shelf)));
    shelves.check(&one, &two);
}

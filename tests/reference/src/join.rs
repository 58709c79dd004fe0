//! Two lanes into one: document 02, #113.
//!
//! The third queue gets its labels as the paper says it: task 0 pushes them, one after the other.

use crate::contents;
use crate::machine::Moved;
use crate::refusal::{self, demand, Refusal};
use crate::tables::{Storage, Tables};
use crate::word::{Anchor, Side, STABLE};

/// 12 for a source: its rows and records.
fn source_long_enough(lane: &Tables) -> Result<(), Refusal> {
    let shared = &lane.shared;
    let rows = shared.control.slots as usize + 1;
    let enough = [shared.lefts.len(), shared.rights.len(), shared.labels.len()];
    demand(
        enough.iter().all(|&count| count >= rows)
            && lane.records.len() as u64 >= shared.control.tasks,
        Refusal::Short,
    )
}

/// No busy task, STABLE.
fn at_rest(lane: &Tables) -> bool {
    let tasks = lane.shared.control.tasks as usize;
    lane.records[..tasks].iter().all(|record| record.place == 0)
        && Anchor::unpack(lane.shared.control.anchor).status == STABLE
}

/// Named, empty, at rest, and zero in rows 0 to slots and their whole mark words.
fn fresh(lane: &Tables) -> bool {
    let shared = &lane.shared;
    let last = shared.control.slots as usize;
    at_rest(lane)
        && !shared.is_pooled()
        && Anchor::unpack(shared.control.anchor).is_empty()
        && shared.lefts[..=last].iter().all(|&word| word == 0)
        && shared.rights[..=last].iter().all(|&word| word == 0)
        && shared.labels[..=last].iter().all(|&label| label == 0)
        && shared.marks[..=last / 64].iter().all(|&word| word == 0)
}

/// Of the two leftmost remaining the smaller goes next, the first's on a tie.
fn merged(mut first: &[u32], mut second: &[u32]) -> Vec<u32> {
    let mut labels = Vec::new();
    loop {
        match (first, second) {
            ([], rest) | (rest, []) => {
                labels.extend_from_slice(rest);
                return labels;
            }
            ([x, others @ ..], [y, ..]) if x <= y => {
                labels.push(*x);
                first = others;
            }
            (_, [y, others @ ..]) => {
                labels.push(*y);
                second = others;
            }
        }
    }
}

fn labels(lane: &Tables) -> Result<Vec<u32>, Refusal> {
    let entries = contents::waiting(&lane.shared).ok_or(Refusal::Unsound)?;
    Ok(entries.iter().map(|entry| entry.label).collect())
}

fn kept(lane: &Tables) -> Storage {
    let shared = &lane.shared;
    Storage {
        control: *shared.control,
        lefts: shared.lefts.to_vec(),
        rights: shared.rights.to_vec(),
        labels: shared.labels.to_vec(),
        marks: shared.marks.to_vec(),
        next: shared.next.to_vec(),
        records: lane.records.to_vec(),
    }
}

fn put_back(lane: &mut Tables, storage: &Storage) {
    *lane.shared.control = storage.control;
    lane.shared.lefts.copy_from_slice(&storage.lefts);
    lane.shared.rights.copy_from_slice(&storage.rights);
    lane.shared.labels.copy_from_slice(&storage.labels);
    lane.shared.marks.copy_from_slice(&storage.marks);
    lane.records.copy_from_slice(&storage.records);
}

/// Task 0 pushes the labels at the right into slots 1, 2 and so on, alone.
fn push_all(lane: &mut Tables, labels: &[u32]) -> Result<(), Refusal> {
    for (slot, &label) in (1..).zip(labels) {
        lane.push(0, Side::Right as u64, slot, label)?;
        while let Moved::Running(_) = lane.step(0)? {}
    }
    Ok(())
}

/// Joins the first queue and the second in the third. Refuses 34 for the controls, 12, 34 for the two
/// walks, 47, 48, 33.
pub fn join(first: &Tables, second: &Tables, third: &mut Tables) -> Result<(), Refusal> {
    refusal::control_sound(first.shared.control)?;
    refusal::control_sound(second.shared.control)?;
    refusal::control_sound(third.shared.control)?;
    source_long_enough(first)?;
    source_long_enough(second)?;
    let slots = third.shared.control.slots;
    refusal::long_enough(third, third.shared.control.tasks, slots, false)?;
    let (ours, theirs) = (labels(first)?, labels(second)?);
    demand(at_rest(first) && at_rest(second) && fresh(third), Refusal::NotAtRest)?;
    demand((ours.len() + theirs.len()) as u64 <= slots, Refusal::Crowded)?;
    let before = kept(third);
    let done = push_all(third, &merged(&ours, &theirs));
    if done.is_err() {
        put_back(third, &before);
    }
    done
}

#[cfg(test)]
mod tests {
    use super::*;
    use crate::tables::Record;

    fn lane(labels: &[u32]) -> Storage {
        let mut storage = Storage::fitting(2, 4);
        storage.lend().open(2, 4, 0).expect("opens");
        push_all(&mut storage.lend(), labels).expect("room for all");
        storage
    }

    #[test]
    fn a_tie_goes_to_the_first() {
        assert_eq!(merged(&[5, 1], &[5, 9]), [5, 1, 5, 9]);
        assert_eq!(merged(&[5, 9], &[5, 1]), [5, 5, 1, 9]);
        assert_eq!(merged(&[], &[2, 1]), [2, 1]);
    }

    #[test]
    fn two_lanes_in_slots_1_to_4() {
        let (mut first, mut second) = (lane(&[5, 1]), lane(&[5, 9]));
        let mut third = Storage::fitting(1, 4);
        third.lend().open(1, 4, 7).expect("opens");
        let idle = Record { retries: 3, ..Record::default() };
        third.records[0] = Record { kind: 1, label: 9, seen: 77, ..idle };
        assert_eq!(join(&first.lend(), &second.lend(), &mut third.lend()), Ok(()));
        assert_eq!(third.labels, [0, 5, 1, 5, 9]);
        assert_eq!(third.lefts, [0, 0, 1, 2, 3]);
        assert_eq!(third.rights, [0, 1 << 32 | 2, 1 << 32 | 3, 1 << 32 | 4, 0]);
        assert_eq!((third.marks[0], third.records[0]), (0b11110, idle));
        assert_eq!(third.control.anchor, (7 + 7) << 32 | 1 << 15 | 4);
    }

    #[test]
    fn refusals_come_in_order() {
        let (mut first, mut second) = (lane(&[1, 2]), lane(&[3]));
        let mut third = Storage::fitting(1, 2);
        third.lend().open(1, 2, u32::MAX).expect("opens");
        let before = third.clone();
        let ask = |first: &mut Storage, second: &mut Storage, third: &mut Storage| {
            join(&first.lend(), &second.lend(), &mut third.lend())
        };
        assert_eq!(ask(&mut first, &mut second, &mut third), Err(Refusal::Crowded));
        second = lane(&[]);
        assert_eq!(ask(&mut first, &mut second, &mut third), Err(Refusal::WornTag));
        assert_eq!(third, before);
        third.rights[0] = 1;
        assert_eq!(ask(&mut first, &mut second, &mut third), Err(Refusal::NotAtRest));
        first.lefts[2] = 0;
        assert_eq!(ask(&mut first, &mut second, &mut third), Err(Refusal::Unsound));
        second.records.clear();
        assert_eq!(ask(&mut first, &mut second, &mut third), Err(Refusal::Short));
        third.control.pooled = 2;
        assert_eq!(ask(&mut first, &mut second, &mut third), Err(Refusal::Unsound));
    }

    #[test]
    fn thirty_three_is_for_the_last_start() {
        let mut first = lane(&[1, 2, 3]);
        for (tag, answer) in [(4_294_967_259, Ok(())), (4_294_967_260, Err(Refusal::WornTag))] {
            let mut third = Storage::fitting(1, 4);
            third.lend().open(1, 4, tag).expect("opens");
            assert_eq!(join(&first.lend(), &lane(&[]).lend(), &mut third.lend()), answer);
        }
    }
}

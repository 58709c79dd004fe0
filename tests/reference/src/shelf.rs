//! Shelves: document 02, #109.

use crate::refusal::{control_sound, demand, long_enough, Refusal};
use crate::tables::{Control, Record, Shared, Tables, POOLED};

pub const SHELVES: usize = 8;

/// Eight shelves as they are lent: one control each, and of every other table an equal part.
#[derive(Clone, Debug, PartialEq, Eq)]
pub struct Rack {
    pub controls: Vec<Control>,
    pub records: Vec<Record>,
    pub lefts: Vec<u64>,
    pub rights: Vec<u64>,
    pub labels: Vec<u32>,
    pub marks: Vec<u64>,
    pub next: Vec<u64>,
}

/// Part n of eight; what is left over is in no part.
fn part<T>(table: &mut [T], shelf: usize) -> &mut [T] {
    let share = table.len() / SHELVES;
    table.chunks_exact_mut(share.max(1)).nth(shelf).filter(|_| share > 0).unwrap_or_default()
}

impl Rack {
    /// Shelves for queues of so many tasks and slots, every entry zero.
    pub fn fitting(tasks: u64, slots: u64) -> Rack {
        let rows = SHELVES * (slots as usize + 1);
        Rack {
            controls: vec![Control::default(); SHELVES],
            records: vec![Record::default(); SHELVES * tasks as usize],
            lefts: vec![0; rows],
            rights: vec![0; rows],
            labels: vec![0; rows],
            marks: vec![0; SHELVES * (slots as usize / 64 + 1)],
            next: vec![0; rows],
        }
    }

    /// A shelf's tables, with a control that stands for its own.
    fn shelf<'a>(&'a mut self, shelf: usize, control: &'a mut Control) -> Tables<'a> {
        Tables {
            shared: Shared {
                control,
                lefts: part(&mut self.lefts, shelf),
                rights: part(&mut self.rights, shelf),
                labels: part(&mut self.labels, shelf),
                marks: part(&mut self.marks, shelf),
                next: part(&mut self.next, shelf),
            },
            records: part(&mut self.records, shelf),
        }
    }
}

/// Entry by entry, as long as there are entries to copy.
fn over<T: Copy>(from: &[T], to: &mut [T], count: u64) {
    for (old, new) in to.iter_mut().zip(from).take(count as usize) {
        *old = *new;
    }
}

/// A queue put over another, which is long enough; what lies beyond keeps.
fn copy(from: &Tables, to: &mut Tables) {
    let (source, target) = (&from.shared, &mut to.shared);
    let control = *source.control;
    let rows = control.slots + 1;
    *target.control = control;
    over(from.records, to.records, control.tasks);
    over(source.lefts, target.lefts, rows);
    over(source.rights, target.rights, rows);
    over(source.labels, target.labels, rows);
    over(source.marks, target.marks, control.slots / 64 + 1);
    if control.pooled == POOLED {
        over(source.next, target.next, rows);
    }
}

/// 12: a shelf or table too short for what is copied.
fn both_long_enough(control: &Control, one: &Tables, other: &Tables) -> Result<(), Refusal> {
    let Control { tasks, slots, pooled, .. } = *control;
    long_enough(one, tasks, slots, pooled == POOLED)?;
    long_enough(other, tasks, slots, pooled == POOLED)
}

/// Saves a queue on a shelf. Refuses 34 for control and Anchor, 43, 12.
pub fn save(queue: &Tables, rack: &mut Rack, shelf: u64) -> Result<(), Refusal> {
    let control = *queue.shared.control;
    control_sound(&control)?;
    demand(shelf < SHELVES as u64, Refusal::NoShelf)?;
    let (number, mut stored) = (shelf as usize, Control::default());
    let enough = rack.controls.len() >= SHELVES;
    let mut there = rack.shelf(number, &mut stored);
    both_long_enough(&control, queue, &there)?;
    demand(enough, Refusal::Short)?;
    copy(queue, &mut there);
    rack.controls[number] = stored;
    Ok(())
}

/// Puts the queue on a shelf back. Refuses 43, 44, 34 for the shelf's control and Anchor, 12.
pub fn put_back(queue: &mut Tables, rack: &mut Rack, shelf: u64) -> Result<(), Refusal> {
    demand(shelf < SHELVES as u64, Refusal::NoShelf)?;
    let number = shelf as usize;
    let mut stored = rack.controls.get(number).copied().unwrap_or_default();
    demand(stored.tasks != 0, Refusal::Unfilled)?;
    control_sound(&stored)?;
    let (control, enough) = (stored, rack.controls.len() >= SHELVES);
    let there = rack.shelf(number, &mut stored);
    both_long_enough(&control, queue, &there)?;
    demand(enough, Refusal::Short)?;
    copy(&there, queue);
    Ok(())
}

#[cfg(test)]
mod tests {
    use super::*;
    use crate::tables::Storage;

    #[test]
    fn parts_are_equal_and_the_rest_is_in_none() {
        let mut table: Vec<u32> = (0..23).collect();
        assert_eq!(part(&mut table, 0), [0, 1]);
        assert_eq!(part(&mut table, 7), [14, 15]);
        assert!(part(&mut table[..7], 3).is_empty());
    }

    #[test]
    fn a_half_done_call_is_half_done_again() {
        let mut queue = Storage::fitting(2, 3);
        queue.lend().open(2, 3, 0).expect("opens");
        queue.lend().push(0, 1, 2, 700).expect("starts");
        let (before, mut rack) = (queue.clone(), Rack::fitting(2, 3));
        save(&queue.lend(), &mut rack, 6).expect("saves");
        while queue.records[0].place != 0 {
            queue.lend().step(0).expect("steps");
        }
        put_back(&mut queue.lend(), &mut rack, 6).expect("returns");
        assert_eq!(queue, before);
    }

    #[test]
    fn refused_in_order() {
        let mut queue = Storage::fitting(1, 1);
        let mut rack = Rack::fitting(1, 1);
        assert_eq!(save(&queue.lend(), &mut rack, 8), Err(Refusal::Unsound));
        queue.lend().open(1, 1, 0).expect("opens");
        queue.lefts.clear();
        assert_eq!(save(&queue.lend(), &mut rack, 8), Err(Refusal::NoShelf));
        assert_eq!(save(&queue.lend(), &mut rack, 7), Err(Refusal::Short));
        assert_eq!(put_back(&mut queue.lend(), &mut rack, 8), Err(Refusal::NoShelf));
        assert_eq!(put_back(&mut queue.lend(), &mut rack, 7), Err(Refusal::Unfilled));
        rack.controls[7] = Control { tasks: 17, ..queue.control };
        assert_eq!(put_back(&mut queue.lend(), &mut rack, 7), Err(Refusal::Unsound));
        rack.controls[7].tasks = 1;
        assert_eq!(put_back(&mut queue.lend(), &mut rack, 7), Err(Refusal::Short));
    }
}

//! What holds between any two steps, in numbered lines: 1 to 13 of every queue, 14 to 20 of
//! a pooled one; 0 and 21 frame them.
//!
//! Q is the sequential deque's queue. For a busy task, `seen` is its Anchor as read; it is *current*
//! if it equals Anchor. `side` is the one that the status as read names at 5 to 10, and the
//! task's elsewhere; `end` is the end of `seen` at that side. A link is *inward* from an end
//! if it leads to the other end, *outward* if it leads away from it.

mod stack;

use crate::deque::Entry;
use crate::pool;
use crate::refusal;
use crate::tables::{Record, Shared, Tables, POP, PUSH};
use crate::word::{Anchor, Link, Side, LAST_TAG, STABLE};
use std::collections::VecDeque;

#[derive(Clone, Copy, PartialEq, Eq)]
enum Holder {
    Nobody,
    Queue,
    Task(usize),
    Stack,
}

struct State<'a> {
    shared: &'a Shared<'a>,
    records: &'a [Record],
    queue: &'a VecDeque<Entry>,
    anchor: Anchor,
    /// Who holds each slot: lines 1, 7 and 8 in one table.
    holders: Vec<Holder>,
}

/// One busy task's record with what the notation above reads off it.
struct Task<'a> {
    number: usize,
    record: &'a Record,
    seen: Anchor,
    current: bool,
    side: Side,
    end: u64,
}

pub fn check(tables: &Tables, queue: &VecDeque<Entry>) -> Result<(), String> {
    let shared = &tables.shared;
    let mut state = State {
        shared,
        records: &tables.records[..shared.control.tasks as usize],
        queue,
        anchor: Anchor::unpack(shared.control.anchor),
        holders: vec![Holder::Nobody; shared.control.slots as usize + 1],
    };
    state.ends_and_marks()?;
    state.neighbours()?;
    state.links()?;
    state.tags_left()?;
    for number in 0..state.records.len() {
        if state.records[number].place != 0 {
            state.task(number)?;
        }
    }
    if shared.is_pooled() {
        state.pool()?;
    }
    state.no_stray_marks()
}

/// `Err` with the line's number unless the fact holds.
fn line(number: u32, holds: bool, fact: &str) -> Result<(), String> {
    if holds {
        return Ok(());
    }
    Err(format!("invariant line {number}: not so: {fact}"))
}

impl<'a> State<'a> {
    /// Line 1: distinct marked slots between Anchor's ends; unstable only with two or more.
    fn ends_and_marks(&mut self) -> Result<(), String> {
        for entry in self.queue {
            self.hold(1, entry.slot, Holder::Queue)?;
            self.marked(1, entry.slot, true)?;
        }
        let (left, right) = match (self.queue.front(), self.queue.back()) {
            (Some(first), Some(last)) => (first.slot, last.slot),
            _ => (0, 0),
        };
        let ends = self.anchor.left == left && self.anchor.right == right;
        line(1, ends, "Anchor's ends are the queue's")?;
        let stable = self.anchor.status == STABLE;
        line(1, stable || self.queue.len() >= 2, "unstable only with two or more")
    }

    /// A slot is held until its label is read, or given back to the pool, and marked until then.
    fn marked(&self, number: u32, slot: u64, marked: bool) -> Result<(), String> {
        let fact = if marked { "a held slot is marked" } else { "a slot being given back is not" };
        line(number, self.shared.is_marked(slot) == marked, fact)
    }

    /// A slot has one holder.
    fn hold(&mut self, number: u32, slot: u64, holder: Holder) -> Result<(), String> {
        line(number, (1..=self.shared.control.slots).contains(&slot), "a held slot is 1 to slots")?;
        let free = self.holders[slot as usize] == Holder::Nobody;
        line(number, free, "a held slot has one holder")?;
        self.holders[slot as usize] = holder;
        Ok(())
    }

    /// Line 2: neighbours name each other, but for the link that the status excuses.
    fn neighbours(&self) -> Result<(), String> {
        let joints = self.queue.iter().zip(self.queue.iter().skip(1));
        for (left, right) in joints {
            let there = self.link(Side::Right, left.slot).slot() == right.slot;
            let back = self.link(Side::Left, right.slot).slot() == left.slot;
            line(
                2,
                there || self.excused() == Some((Side::Right, left.slot)),
                "a Right link is made",
            )?;
            line(
                2,
                back || self.excused() == Some((Side::Left, right.slot)),
                "a Left link is made",
            )?;
        }
        Ok(())
    }

    /// The link that need not be made yet: which table, and whose row.
    fn excused(&self) -> Option<(Side, u64)> {
        let side = self.anchor.pushed_side();
        let unstable = self.anchor.status != STABLE;
        unstable.then(|| (side, self.next_to_end(side).unwrap_or(0)))
    }

    /// The slot next to the end at a side, if there are two or more.
    fn next_to_end(&self, side: Side) -> Option<u64> {
        let last = self.queue.len().checked_sub(2)?;
        let place = match side {
            Side::Left => 1,
            Side::Right => last,
        };
        Some(self.queue[place].slot)
    }

    fn link(&self, side: Side, slot: u64) -> Link {
        Link(self.shared.links(side)[slot as usize])
    }

    /// Line 3: sound link words; no tag beyond Anchor's, and below it while not made.
    fn links(&self) -> Result<(), String> {
        let slots = self.shared.control.slots;
        for side in [Side::Left, Side::Right] {
            for &word in &self.shared.links(side)[..=slots as usize] {
                line(3, Link(word).is_sound(slots), "every link word is sound")?;
                line(3, Link(word).tag() <= self.anchor.tag, "no link's tag is beyond Anchor's")?;
            }
        }
        if let Some((side, slot)) = self.excused() {
            let link = self.link(side, slot);
            let made = link.slot() == self.anchor.end(side);
            line(
                3,
                made || link.tag() < self.anchor.tag,
                "an unmade link's tag is below Anchor's",
            )?;
        }
        Ok(())
    }

    /// Line 4: the tags that the calls under way may still use up.
    fn tags_left(&self) -> Result<(), String> {
        let before_effect = self.records.iter().map(|record| match (record.place, record.kind) {
            (0 | 11 | 15..=17, _) => 0,
            (_, PUSH) => 2 * (1 - record.finishing.min(1)),
            _ => 1,
        });
        let unstable = u64::from(self.anchor.status != STABLE);
        let sum = self.anchor.tag + unstable + before_effect.sum::<u64>();
        line(4, sum <= LAST_TAG, "enough tags are left for the calls under way")
    }

    /// Lines 5 to 13 of one busy task.
    fn task(&mut self, number: usize) -> Result<(), String> {
        let task = Task::of(number, &self.records[number], self.shared.control.anchor);
        self.ranges(&task)
            .and_then(|()| self.reading_is_old(&task))
            .and_then(|()| route_fits(&task))
            .and_then(|()| self.held_by(&task))
            .and_then(|()| self.neighbour(&task))
            .and_then(|()| self.back_link(&task))
            .and_then(|()| self.head_as_read(&task))
            .map_err(|what| format!("{what}; task {number}: {:?}", task.record))
    }

    /// Line 0: all fields in their ranges.
    fn ranges(&self, task: &Task) -> Result<(), String> {
        let sound = refusal::record_sound(task.record, self.shared.control).is_ok();
        line(0, sound, "every field is in its range")
    }

    /// Line 5: a changed Anchor never looks current again.
    fn reading_is_old(&self, task: &Task) -> Result<(), String> {
        let old = task.current || task.seen.tag < self.anchor.tag;
        let read = (2..=11).contains(&task.record.place);
        line(5, !read || old, "an Anchor as read is current or has a lower tag")
    }

    /// Line 7: a push before its effect holds its slot, a pooled one once it has got it.
    /// Line 8: a pop at 11 holds the end, at 15 to 17 its own slot.
    fn held_by(&mut self, task: &Task) -> Result<(), String> {
        let record = task.record;
        let Some(slot) = pool::held_slot(record) else { return Ok(()) };
        if record.kind == POP {
            self.hold(8, slot, Holder::Task(task.number))?;
            return self.marked(8, slot, record.place == 11);
        }
        self.hold(7, slot, Holder::Task(task.number))?;
        self.marked(7, slot, true)?;
        let labelled = self.shared.labels[record.own as usize] == record.label;
        line(7, labelled, "a push's row has its label")?;
        let inward = self.link(task.side.opposite(), record.own).slot();
        line(7, record.place != 4 || inward == task.end, "at 4 a push's inward link names the end")
    }

    /// Lines 9 and 10: the neighbour as read.
    fn neighbour(&self, task: &Task) -> Result<(), String> {
        let record = task.record;
        let place = record.place;
        let read = (6..=9).contains(&place) || (place == 4 && record.kind == POP);
        if read && task.current {
            let next = self.next_to_end(task.side);
            line(9, next == Some(record.neighbour), "a current neighbour is next to the end")?;
            let inward = self.link(task.side.opposite(), task.end).slot();
            line(9, inward == record.neighbour, "the end's inward link names the neighbour")?;
        }
        let row = record.neighbour != 0 && record.neighbour <= self.shared.control.slots;
        line(10, !(7..=9).contains(&place) || row, "at 7 to 9 the neighbour has a row")
    }

    /// Lines 11 to 13: the neighbour's link back to the end.
    fn back_link(&self, task: &Task) -> Result<(), String> {
        let record = task.record;
        let read = Link(record.link);
        let now = self.link(task.side, record.neighbour);
        if let 8 | 9 = record.place {
            line(11, read.slot() != task.end, "the link as read does not name the end")?;
            line(11, read.tag() <= now.tag(), "the link's tag has not gone back")?;
            let equal = !task.current || read.tag() != now.tag() || read == now;
            line(11, equal, "the same tag is the same link while current")?;
        }
        let grown = task.current || read.tag() < now.tag();
        line(12, record.place != 9 || grown, "at 9, not current, the link's tag has grown")?;
        if record.place == 10 && task.current {
            let next = self.next_to_end(task.side).unwrap_or(0);
            let made = self.link(task.side, next).slot() == task.end;
            line(13, made, "at 10, current, the back link is made")?;
        }
        Ok(())
    }

    /// Line 21: a mark is set only for a slot that the queue or a call holds.
    fn no_stray_marks(&self) -> Result<(), String> {
        let mut slots = 1..=self.shared.control.slots;
        let held =
            |slot: u64| matches!(self.holders[slot as usize], Holder::Queue | Holder::Task(_));
        let strays = slots.any(|slot| self.shared.is_marked(slot) && !held(slot));
        line(21, !strays, "every marked slot has a holder")
    }
}

impl<'a> Task<'a> {
    fn of(number: usize, record: &'a Record, anchor: u64) -> Task<'a> {
        let seen = Anchor::unpack(record.seen);
        let side = match record.place {
            5..=10 => seen.pushed_side(),
            _ => Side::numbered(record.side),
        };
        Task { number, record, seen, current: record.seen == anchor, side, end: seen.end(side) }
    }
}

/// Line 6: what was read is what brought the task here.
fn route_fits(task: &Task) -> Result<(), String> {
    let Task { seen, record, .. } = task;
    let pop = record.kind == POP;
    let single = !seen.is_empty() && seen.left == seen.right;
    let fits = match record.place {
        2 if pop => single,
        2 => seen.is_empty(),
        3 | 4 => seen.status == STABLE && !seen.is_empty() && !(pop && single),
        5..=10 => seen.status != STABLE,
        _ => true,
    };
    line(6, fits, "the Anchor as read fits the place")
}

//! What a step does: document 01, "Places", and document 02, #104 and #106; figures 3 to 5
//! of 003.
//!
//! Control, tables' lengths and the record have been found sound. What is left of 34
//! is tested here, before the place's first write.

use crate::machine::{Answer, Moved};
use crate::refusal::{demand, Refusal};
use crate::tables::{Record, Shared, POP, PUSH};
use crate::word::{Anchor, Link, Side, LAST_TAG, STABLE};

/// A task's retries stay here once there.
pub const MOST_RETRIES: u64 = 0xffff_ffff;

#[inline]
pub(crate) fn advance(shared: &mut Shared, record: &mut Record) -> Answer {
    match record.place {
        1 => read_anchor(shared, record),
        2 => fill_or_drain(shared, record),
        3 if record.kind == PUSH => point_own_inward(shared, record),
        3 => read_neighbour(shared, record, Side::numbered(record.side)),
        4 => move_end(shared, record),
        5 => read_neighbour(shared, record, Anchor::unpack(record.seen).pushed_side()),
        6 | 8 => confirm_anchor(shared, record),
        7 => read_back_link(shared, record),
        9 => mend_back_link(shared, record),
        10 => settle(shared, record),
        11 => take_label(shared, record),
        12 => read_head(shared, record),
        13 => read_next(shared, record),
        14 => take_slot(shared, record),
        15 => read_head(shared, record),
        16 => write_next(shared, record),
        _ => give_slot_back(shared, record),
    }
}

/// Place 1: figure 3 line 1, figure 5 line 11.
fn read_anchor(shared: &Shared, record: &mut Record) -> Answer {
    take_reading(record, shared.control.anchor)
}

/// What follows a reading of Anchor, made at 1 or by a failed change at 2 or 4 (#106).
/// A pop asks for l = r before the status.
fn take_reading(record: &mut Record, found: u64) -> Answer {
    record.seen = found;
    let seen = Anchor::unpack(found);
    let pop = record.kind == POP;
    match seen {
        _ if seen.is_empty() && pop => answer(record, Moved::Empty),
        _ if seen.is_empty() => go(record, 2),
        _ if pop && seen.left == seen.right => go(record, 2),
        _ if seen.status == STABLE => go(record, 3),
        _ => go(record, 5),
    }
}

/// Place 2: figure 3 line 2, figure 5 line 12. Both ends at once; own slot is 0 for a pop.
fn fill_or_drain(shared: &mut Shared, record: &mut Record) -> Answer {
    let (left, right) = (record.own, record.own);
    let wanted = Anchor { left, right, ..Anchor::unpack(record.seen) };
    match change_anchor(shared, record, wanted)? {
        Change::Failed(found) => take_reading(record, found),
        Change::Done(_) if record.kind == PUSH => answer(record, Moved::Pushed),
        Change::Done(_) => go(record, 11),
    }
}

/// Place 3 of a push: figure 3 line 3, with the tag kept.
fn point_own_inward(shared: &mut Shared, record: &mut Record) -> Answer {
    let side = Side::numbered(record.side);
    let old = meet_link(shared, side.opposite(), record.own)?;
    let end = Anchor::unpack(record.seen).end(side);
    shared.links_mut(side.opposite())[record.own as usize] = Link::new(old.tag(), end).0;
    go(record, 4)
}

/// Place 3 of a pop and place 5: figure 5 line 13, figure 4 line 5.
fn read_neighbour(shared: &Shared, record: &mut Record, side: Side) -> Answer {
    let end = Anchor::unpack(record.seen).end(side);
    record.neighbour = meet_link(shared, side.opposite(), end)?.slot();
    go(record, record.place + 1)
}

/// Place 4: figure 3 line 4, figure 5 line 14.
fn move_end(shared: &mut Shared, record: &mut Record) -> Answer {
    let side = Side::numbered(record.side);
    let seen = Anchor::unpack(record.seen);
    let wanted = match record.kind {
        PUSH => seen.with_end(side, record.own).with_status(side.push_status()),
        _ => seen.with_end(side, record.neighbour),
    };
    match change_anchor(shared, record, wanted)? {
        Change::Failed(found) => take_reading(record, found),
        Change::Done(_) if record.kind == POP => go(record, 11),
        Change::Done(word) => {
            record.seen = word;
            record.finishing = 1;
            go(record, 5)
        }
    }
}

/// Places 6 and 8: figure 4 lines 6 (its t stands for s) and 8.
fn confirm_anchor(shared: &Shared, record: &mut Record) -> Answer {
    if shared.control.anchor == record.seen {
        go(record, record.place + 1)
    } else {
        leave(record)
    }
}

/// Place 7: figure 4 line 7.
fn read_back_link(shared: &Shared, record: &mut Record) -> Answer {
    let seen = Anchor::unpack(record.seen);
    let side = seen.pushed_side();
    let back = meet_link(shared, side, record.neighbour)?;
    record.link = back.0;
    let made = back.slot() == seen.end(side);
    go(record, if made { 10 } else { 8 })
}

/// Place 9: figure 4 line 9.
fn mend_back_link(shared: &mut Shared, record: &mut Record) -> Answer {
    let seen = Anchor::unpack(record.seen);
    let side = seen.pushed_side();
    let row = row_of(shared, record.neighbour)?;
    if shared.links(side)[row] != record.link {
        count_retry(record);
        return leave(record);
    }
    let tag = raised(Link(record.link).tag())?;
    shared.links_mut(side)[row] = Link::new(tag, seen.end(side)).0;
    go(record, 10)
}

/// Place 10: figure 4 line 10. Whether done or failed, the task leaves.
fn settle(shared: &mut Shared, record: &mut Record) -> Answer {
    let wanted = Anchor::unpack(record.seen).with_status(STABLE);
    change_anchor(shared, record, wanted)?;
    leave(record)
}

/// Place 11: the label is read before the mark is cleared. In a pooled queue the pop keeps
/// slot and label until the slot is back in the pool.
fn take_label(shared: &mut Shared, record: &mut Record) -> Answer {
    let slot = Anchor::unpack(record.seen).end(Side::numbered(record.side));
    let row = row_of(shared, slot)?;
    let label = shared.labels[row];
    shared.clear_mark(slot);
    if !shared.is_pooled() {
        return answer(record, Moved::Popped { slot, label });
    }
    (record.own, record.label) = (slot, label);
    go(record, 15)
}

/// Places 12 and 15: the head as the link word. A push that finds the stack empty answers.
fn read_head(shared: &Shared, record: &mut Record) -> Answer {
    let head = Link(shared.control.head);
    demand(head.is_sound(shared.control.slots), Refusal::Unsound)?;
    if record.kind == PUSH && head.slot() == 0 {
        return answer(record, Moved::NoSlot);
    }
    record.link = head.0;
    go(record, record.place + 1)
}

/// Place 13: what lies below the slot on top.
fn read_next(shared: &Shared, record: &mut Record) -> Answer {
    let next = shared.next[row_of(shared, Link(record.link).slot())?];
    demand(next <= shared.control.slots, Refusal::Unsound)?;
    record.neighbour = next;
    go(record, 14)
}

/// Place 14: the slot on top becomes the push's own, marked and labelled in the same step.
fn take_slot(shared: &mut Shared, record: &mut Record) -> Answer {
    if !change_head(shared, record, record.neighbour)? {
        return go(record, 12);
    }
    let slot = Link(record.link).slot();
    shared.set_mark(slot);
    shared.labels[slot as usize] = record.label;
    record.own = slot;
    go(record, 1)
}

/// Place 16: the slot to be given back points at the head as read.
fn write_next(shared: &mut Shared, record: &mut Record) -> Answer {
    shared.next[record.own as usize] = Link(record.link).slot();
    go(record, 17)
}

/// Place 17: the slot is on top again, and only now the pop answers.
fn give_slot_back(shared: &mut Shared, record: &mut Record) -> Answer {
    let Record { own: slot, label, .. } = *record;
    if !change_head(shared, record, slot)? {
        return go(record, 15);
    }
    answer(record, Moved::Popped { slot, label })
}

/// A change of the head: whether it was done.
fn change_head(shared: &mut Shared, record: &mut Record, slot: u64) -> Result<bool, Refusal> {
    if shared.control.head != record.link {
        count_retry(record);
        return Ok(false);
    }
    let tag = raised(Link(record.link).tag())?;
    shared.control.head = Link::new(tag, slot).0;
    Ok(true)
}

/// A change of Anchor: done with the new word, or failed with the word found.
enum Change {
    Done(u64),
    Failed(u64),
}

/// 34 only for a change that would be made.
fn change_anchor(
    shared: &mut Shared,
    record: &mut Record,
    wanted: Anchor,
) -> Result<Change, Refusal> {
    let found = shared.control.anchor;
    if found != record.seen {
        count_retry(record);
        return Ok(Change::Failed(found));
    }
    demand(wanted.is_sound(shared.control.slots), Refusal::Unsound)?;
    let tag = raised(wanted.tag)?;
    let word = Anchor { tag, ..wanted }.pack();
    shared.control.anchor = word;
    Ok(Change::Done(word))
}

/// The next tag, unless it would pass 32 bits.
fn raised(tag: u64) -> Result<u64, Refusal> {
    demand(tag < LAST_TAG, Refusal::Unsound)?;
    Ok(tag + 1)
}

/// In the task's own record: a failed change touches nothing shared (#101).
fn count_retry(record: &mut Record) {
    if record.retries < MOST_RETRIES {
        record.retries += 1;
    }
}

/// The row of a slot that a step needs: 1 to slots, else 34.
fn row_of(shared: &Shared, slot: u64) -> Result<usize, Refusal> {
    demand((1..=shared.control.slots).contains(&slot), Refusal::Unsound)?;
    Ok(slot as usize)
}

/// The link word that places 3, 5 and 7 meet, else 34.
fn meet_link(shared: &Shared, side: Side, slot: u64) -> Result<Link, Refusal> {
    let link = Link(shared.links(side)[row_of(shared, slot)?]);
    demand(link.is_sound(shared.control.slots), Refusal::Unsound)?;
    Ok(link)
}

fn go(record: &mut Record, place: u64) -> Answer {
    record.place = place;
    Ok(Moved::Running(place))
}

/// After an answer all of the record but its count is zero.
fn answer(record: &mut Record, moved: Moved) -> Answer {
    *record = record.cleared();
    Ok(moved)
}

/// *Leave*: a finishing push answers, any other task goes to 1.
fn leave(record: &mut Record) -> Answer {
    if record.finishing == 1 {
        answer(record, Moved::Pushed)
    } else {
        go(record, 1)
    }
}

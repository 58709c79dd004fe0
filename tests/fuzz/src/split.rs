//! A step or a start split at its touch: planned by the library, the touch made here on plain words, then
//! settled by the library. The second program makes the whole of it.

use crate::bytes::Bytes;
use crate::ours::{by_reference, moved, record, Ours};
use crate::scene;
use reference::tables::{Record, Storage};
use zeppolecape::raw::{self, Onward, Start, Touch};

/// What the calls ask of their caller: tables that are long enough, and a control that is sound.
fn admitted(theirs: &mut Storage) -> bool {
    let control = theirs.control;
    let lent = theirs.lend();
    reference::refusal::control_sound(&control).is_ok()
        && reference::refusal::shared_long_enough(&lent.shared, control.slots, control.pooled == 1)
            .is_ok()
}

fn link<'a>(ours: &'a mut Ours, touch: &Touch) -> &'a mut u64 {
    let links = if touch.side == 1 { &mut ours.rights } else { &mut ours.lefts };
    &mut links[touch.slot as usize]
}

fn swap(word: &mut u64, touch: &Touch) -> u64 {
    let found = *word;
    if found == touch.expected {
        *word = touch.word;
    }
    found
}

fn mark(ours: &mut Ours, slot: u64, set: bool) -> u64 {
    let (word, bit) = (&mut ours.marks[slot as usize / 64], 1 << (slot % 64));
    let found = u64::from(*word & bit != 0);
    *word = if set { *word | bit } else { *word & !bit };
    found
}

/// Makes a touch as the header's list says it, and tells the word found.
fn made(ours: &mut Ours, touch: &Touch) -> u64 {
    let slot = touch.slot as usize;
    match touch.act {
        raw::LOAD_ANCHOR => ours.control.anchor,
        raw::SWAP_ANCHOR => swap(&mut ours.control.anchor, touch),
        raw::LOAD_LINK => *link(ours, touch),
        raw::SWAP_LINK => swap(link(ours, touch), touch),
        raw::PUT_LINK => {
            let slots = ours.control.slots;
            let word = link(ours, touch);
            let found = *word;
            if found & 0xffff_ffff <= slots {
                *word = found & !0xffff_ffff | touch.word;
            }
            found
        }
        raw::TAKE_LABEL => {
            mark(ours, touch.slot, false);
            ours.labels[slot].into()
        }
        raw::LOAD_HEAD => ours.control.head,
        raw::SWAP_HEAD => swap(&mut ours.control.head, touch),
        raw::DRAW_SLOT => {
            let found = swap(&mut ours.control.head, touch);
            if found == touch.expected {
                ours.labels[slot] = touch.label;
                mark(ours, touch.slot, true);
            }
            found
        }
        raw::LOAD_NEXT => ours.next[slot],
        raw::STORE_NEXT => {
            ours.next[slot] = touch.word;
            0
        }
        raw::TAKE_SLOT => {
            let found = mark(ours, touch.slot, true);
            if found == 0 {
                ours.labels[slot] = touch.label;
            }
            found
        }
        raw::LOAD_MARK => ours.marks[slot / 64] >> (slot % 64) & 1,
        _ => 0,
    }
}

fn told(onward: &Onward) -> Result<(u32, u32, u64), u32> {
    let raw::Reply { code, label, value } = onward.reply;
    if code < 10 {
        Ok((code, label, value))
    } else {
        Err(code)
    }
}

/// What the next step is planned to be; the record lies elsewhere.
fn planned(ours: &Ours, own: &raw::Record) -> Touch {
    // SAFETY: the record is lent for the call.
    unsafe { raw::zc_plan(ours.control.slots, ours.control.pooled, own) }
}

/// What a step comes to. A record that has a plan need not be tested, and comes to the same.
fn settled(ours: &Ours, own: &mut raw::Record, found: u64, has_plan: bool) -> Onward {
    let (slots, pooled, mut untested) = (ours.control.slots, ours.control.pooled, *own);
    // SAFETY: the records are lent for the calls.
    let onward = unsafe { raw::zc_settle_plan(slots, pooled, own, found) };
    if has_plan {
        let same = unsafe { raw::zc_settle_unasked(slots, pooled, &mut untested, found) };
        assert_eq!((same, untested), (onward, *own), "not tested");
    }
    onward
}

pub fn step(bytes: &mut Bytes, ours: &mut Ours, theirs: &mut Storage) {
    if !admitted(theirs) {
        return;
    }
    let mut two = theirs.records.get(bytes.below(4) as usize).copied().unwrap_or_default();
    if bytes.below(4) == 0 {
        scene::spoil(bytes, &mut two, theirs.control.slots);
    }
    let mut one = record(&two);
    let touch = planned(ours, &one);
    let found = made(ours, &touch);
    let onward = settled(ours, &mut one, found, touch.act != raw::NO_TOUCH);
    let expected = by_reference(theirs.lend().shared.step_lent(&mut two)).map(moved);
    assert_eq!(told(&onward), expected);
    assert_eq!(one, record(&two), "the record");
    if expected.is_ok() {
        assert_eq!(onward.touch, planned(ours, &one), "the touch after it");
    }
}

/// The start of the second program, with the record in a row of its own.
fn started(theirs: &mut Storage, own: &mut Record, start: &Start) -> Result<(u32, u32, u64), u32> {
    let (kept, tasks) = (std::mem::replace(&mut theirs.records, vec![*own]), theirs.control.tasks);
    theirs.control.tasks = 1;
    let mut lent = theirs.lend();
    let answer = match start.operation {
        raw::ASK_PUSH => {
            lent.push(0, start.side, start.slot, start.label as u32).map(|()| (1, 0, 1))
        }
        raw::ASK_POP => lent.pop(0, start.side).map(|()| (1, 0, 1)),
        _ => lent.push_pooled(0, start.side, start.label as u32).map(|()| (1, 0, 12)),
    };
    *own = theirs.records[0];
    (theirs.records, theirs.control.tasks) = (kept, tasks);
    by_reference(answer)
}

pub fn start(bytes: &mut Bytes, ours: &mut Ours, theirs: &mut Storage) {
    if !admitted(theirs) {
        return;
    }
    let mut two = theirs.records.get(bytes.below(4) as usize).copied().unwrap_or_default();
    let mut one = record(&two);
    let (operation, side, slot) = (bytes.near(2), bytes.near(1), bytes.near(theirs.control.slots));
    let start = Start { operation, side, slot, label: bytes.word() };
    let (slots, pooled) = (ours.control.slots, ours.control.pooled);
    let expected = started(theirs, &mut two, &start);
    let (anchor, mut loaded) = (ours.control.anchor, one);
    // SAFETY: record and start are lent for the call, here and below.
    let at_once = unsafe { raw::zc_start_loaded(slots, pooled, &mut loaded, &start, anchor) };
    let mut touch = unsafe { raw::zc_plan_start(slots, pooled, &one, &start) };
    if touch.act == raw::NO_TOUCH {
        assert_eq!(Err(touch.word as u32), expected, "refused without a touch");
        assert_eq!((told(&at_once), at_once.touch, loaded), (expected, touch, one), "at once");
        return;
    }
    loop {
        let found = made(ours, &touch);
        let onward =
            unsafe { raw::zc_settle_start(slots, pooled, &mut one, &start, touch.act, found) };
        if touch.act == raw::LOAD_ANCHOR {
            assert_eq!((at_once, loaded), (onward, one), "at once");
        }
        if onward.reply.code != raw::STARTING {
            assert_eq!(told(&onward), expected);
            assert_eq!(one, record(&two), "the record");
            return;
        }
        touch = onward.touch;
    }
}

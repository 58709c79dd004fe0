//! The tables as threads share them: every word atomic, every touch but a label's sequentially
//! consistent. No two threads ever have an instruction on one label before them, which is proved
//! (`LabelsApart` of crates/threads/specs/Promises.antt), so a label could be a plain word, as it is
//! in C. Here it is an atomic with relaxed loads and stores, which are the same instructions and need
//! no unsafe code: each load finds the one store that happens before it.

use crate::raw::{self, Onward, Record, Start, Touch};
use alloc::vec::Vec;
use core::sync::atomic::{
    AtomicU32, AtomicU64,
    Ordering::{Relaxed, SeqCst},
};

/// A word in cache lines of its own.
#[derive(Debug)]
#[repr(align(128))]
pub(crate) struct Apart(pub AtomicU64);

#[derive(Debug)]
pub(crate) struct Cells {
    pub anchor: Apart,
    pub head: Apart,
    pub slots: u64,
    pub pooled: u64,
    pub lefts: Vec<AtomicU64>,
    pub rights: Vec<AtomicU64>,
    pub labels: Vec<AtomicU32>,
    pub marks: Vec<AtomicU64>,
    pub next: Vec<AtomicU64>,
}

fn load(word: &AtomicU64) -> u64 {
    word.load(SeqCst)
}

/// The word found, which is `expected` exactly where the change is done.
fn swap(word: &AtomicU64, expected: u64, wanted: u64) -> u64 {
    let (Ok(found) | Err(found)) = word.compare_exchange(expected, wanted, SeqCst, SeqCst);
    found
}

/// A word that is the wanted one already is only read: a store costs as much as a change.
fn store(word: &AtomicU64, wanted: u64) -> u64 {
    if load(word) != wanted {
        word.store(wanted, SeqCst);
    }
    0
}

impl Cells {
    fn link(&self, touch: &Touch) -> &AtomicU64 {
        let links = if touch.side == raw::RIGHT { &self.rights } else { &self.lefts };
        &links[touch.slot as usize]
    }

    /// In a sound link word the slot is replaced, and the tag kept. One that has the slot already
    /// stays, and so does one that names no slot of the queue.
    fn put(&self, link: &AtomicU64, slot: u64) -> u64 {
        let mut was = load(link);
        while was & 0xffff_ffff <= self.slots && was & 0xffff_ffff != slot {
            let found = swap(link, was, (was >> 32 << 32) | slot);
            if found == was {
                break;
            }
            was = found;
        }
        was
    }

    /// The label is read while the mark still keeps the slot from others' pushes.
    fn take(&self, slot: u64) -> u64 {
        let label = self.labels[slot as usize].load(Relaxed);
        self.marks[slot as usize / 64].fetch_and(!(1 << (slot % 64)), SeqCst);
        u64::from(label)
    }

    /// Only once the head is changed is the slot this thread's, to be labelled and marked.
    fn draw(&self, touch: &Touch) -> u64 {
        let found = swap(&self.head.0, touch.expected, touch.word);
        if found == touch.expected {
            self.labels[touch.slot as usize].store(touch.label, Relaxed);
            self.marks[touch.slot as usize / 64].fetch_or(1 << (touch.slot % 64), SeqCst);
        }
        found
    }

    /// The mark found, 0 or 1. Who sets it has the slot, and labels it.
    fn claim(&self, touch: &Touch) -> u64 {
        let bit = 1 << (touch.slot % 64);
        if self.marks[touch.slot as usize / 64].fetch_or(bit, SeqCst) & bit != 0 {
            return 1;
        }
        self.labels[touch.slot as usize].store(touch.label, Relaxed);
        0
    }

    /// Makes a touch, and answers the word found: a line for each kind, as in the header.
    pub fn made(&self, touch: &Touch) -> u64 {
        let Touch { act, slot, expected, word, .. } = *touch;
        match act {
            raw::LOAD_ANCHOR => load(&self.anchor.0),
            raw::SWAP_ANCHOR => swap(&self.anchor.0, expected, word),
            raw::LOAD_LINK => load(self.link(touch)),
            raw::SWAP_LINK => swap(self.link(touch), expected, word),
            raw::PUT_LINK => self.put(self.link(touch), word),
            raw::TAKE_LABEL => self.take(slot),
            raw::LOAD_HEAD => load(&self.head.0),
            raw::SWAP_HEAD => swap(&self.head.0, expected, word),
            raw::DRAW_SLOT => self.draw(touch),
            raw::LOAD_NEXT => load(&self.next[slot as usize]),
            raw::STORE_NEXT => store(&self.next[slot as usize], word),
            raw::TAKE_SLOT => self.claim(touch),
            raw::LOAD_MARK => load(&self.marks[slot as usize / 64]) >> (slot % 64) & 1,
            _ => 0,
        }
    }

    /// What the next step of a record does.
    pub fn planned(&self, own: &Record) -> Touch {
        // SAFETY: the record is lent for the call.
        unsafe { raw::zc_plan(self.slots, self.pooled, own) }
    }

    /// Starts a call: running, with its first step planned, or refused. The first touch is the load
    /// of Anchor; a push that names a slot has one more, of the slot's mark.
    pub fn begun(&self, own: &mut Record, start: &Start) -> Onward {
        let anchor = load(&self.anchor.0);
        // SAFETY: record and start are lent for the call, and nobody else has either.
        let onward = unsafe { raw::zc_start_loaded(self.slots, self.pooled, own, start, anchor) };
        if onward.reply.code != raw::STARTING {
            return onward;
        }
        let (act, found) = (onward.touch.act, self.made(&onward.touch));
        // SAFETY: as above.
        unsafe { raw::zc_settle_start(self.slots, self.pooled, own, start, act, found) }
    }

    /// What a step comes to whose touch has found a word.
    pub fn settled(&self, own: &mut Record, found: u64) -> Onward {
        // SAFETY: the record is lent for the call, and nobody else has it.
        unsafe { raw::zc_settle_plan(self.slots, self.pooled, own, found) }
    }

    /// The same for a record as a start or a settlement left it: it is not tested again.
    pub fn settled_unasked(&self, own: &mut Record, found: u64) -> Onward {
        // SAFETY: as above.
        unsafe { raw::zc_settle_unasked(self.slots, self.pooled, own, found) }
    }
}

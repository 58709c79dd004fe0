//! The fields of a run file: document 01, "The run file and its trace"; 05 and 06 are #104's.

use super::{Operation, Place};
use std::collections::VecDeque;

const MOST_STEPS: usize = 4_096;

/// Bytes that have come and are not used up, and how far the run is.
#[derive(Default)]
pub struct Decoder {
    bytes: Vec<u8>,
    /// Where `bytes` begins, and where the piece that was added last stands.
    at: Option<Place>,
    latest: Option<Place>,
    opened: bool,
    broken: bool,
}

impl Decoder {
    /// More bytes, which stand at this place.
    pub fn add(&mut self, at: Place, bytes: &[u8]) {
        if self.bytes.is_empty() {
            self.at = Some(at);
        }
        self.latest = Some(at);
        self.bytes.extend_from_slice(bytes);
    }

    /// The operations of the next field, and where it stands; nothing while none is whole.
    pub fn take(&mut self, into: &mut VecDeque<Operation>) -> Option<Place> {
        if self.broken {
            self.bytes.clear();
            return None;
        }
        let (length, at) = (self.whole()?, self.at?);
        let content =
            if fits(self.bytes[0], length) { self.bytes.get(3..3 + length) } else { None };
        match content.and_then(|content| operations(self.bytes[0], content, self.opened)) {
            Some(found) => into.extend(found),
            None => {
                into.push_back(Operation::Malformed);
                self.broken = true;
                return Some(at);
            }
        }
        self.opened = true;
        self.bytes.drain(..3 + length);
        self.at = match (at, self.latest) {
            (Place::Byte(byte), _) => Some(Place::Byte(byte + 3 + length as u64)),
            (Place::Line(_), latest) => latest,
        };
        Some(at)
    }

    /// How long the next field's content is, if all of it is there. A head that no field has is told at
    /// once, however much it says that follows.
    fn whole(&self) -> Option<usize> {
        let &[tag, high, low, ..] = &self.bytes[..] else { return None };
        let length = usize::from(u16::from_be_bytes([high, low]));
        (!fits(tag, length) || self.bytes.len() >= 3 + length).then_some(length)
    }

    /// At the end of the bytes: whether the run is malformed, and where.
    pub fn end(&mut self) -> Option<Option<Place>> {
        let cut = !self.bytes.is_empty() || !self.opened;
        let malformed = cut && !self.broken;
        self.broken = true;
        self.bytes.clear();
        malformed.then_some(self.at)
    }
}

fn fits(tag: u8, length: usize) -> bool {
    matches!((tag, length), (1 | 5, 7) | (2, 8) | (3, 2) | (4, 0..=MOST_STEPS) | (6, 6))
}

fn number(bytes: &[u8]) -> u32 {
    bytes.iter().fold(0, |sum, &byte| sum << 8 | u32::from(byte))
}

/// What a field of a fitting length asks for, if it is in its place.
fn operations(tag: u8, content: &[u8], opened: bool) -> Option<Vec<Operation>> {
    if opened == matches!(tag, 1 | 5) {
        return None;
    }
    let one = |operation| Some(vec![operation]);
    match tag {
        1 | 5 => one(Operation::Open {
            pooled: tag == 5,
            tasks: content[0],
            slots: number(&content[1..3]) as u16,
            first_tag: number(&content[3..]),
        }),
        2 => one(Operation::Push {
            task: content[0],
            side: content[1],
            slot: Some(number(&content[2..4]) as u16),
            label: number(&content[4..]),
        }),
        3 => one(Operation::Pop { task: content[0], side: content[1] }),
        4 => Some(content.iter().map(|&task| Operation::Step { task }).collect()),
        _ => one(Operation::Push {
            task: content[0],
            side: content[1],
            slot: None,
            label: number(&content[2..]),
        }),
    }
}

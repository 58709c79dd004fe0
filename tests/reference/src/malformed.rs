//! Files that break a rule, one rule each, and openings that are refused.

use crate::runfile::{append, MOST_STEPS, OPEN, OPEN_POOLED, POP, PUSH, PUSH_POOLED, STEPS};

pub struct Broken {
    pub kind: &'static str,
    pub file: Vec<u8>,
}

pub const KINDS: [&str; 9] = [
    "empty file",
    "cut field",
    "wrong length",
    "steps at their most",
    "steps over-long",
    "unknown tag",
    "field before opening",
    "second opening",
    "opening near limits",
];

const OPENING: [u8; 10] = [OPEN, 0, 7, 2, 0, 3, 0, 0, 0, 0];
const POOLED: [u8; 10] = [OPEN_POOLED, 0, 7, 2, 0, 3, 0, 0, 0, 0];
const OPENINGS: [[u8; 10]; 2] = [OPENING, POOLED];

/// How long each content of a fixed length is.
const LENGTHS: [(u8, usize); 5] =
    [(OPEN, 7), (PUSH, 8), (POP, 2), (OPEN_POOLED, 7), (PUSH_POOLED, 6)];

pub fn all() -> Vec<Broken> {
    let mut files = vec![Broken { kind: "empty file", file: Vec::new() }];
    cuts(&mut files);
    wrong_lengths(&mut files);
    steps_lengths(&mut files);
    unknown_tags(&mut files);
    before_opening(&mut files);
    second_openings(&mut files);
    refused_openings(&mut files);
    files
}

/// A short run with every field and something after it.
fn sample(opening: [u8; 10]) -> Vec<u8> {
    let mut file = opening.to_vec();
    append(&mut file, PUSH, &[0, 1, 0, 1, 0, 0, 2, 0xbc]);
    append(&mut file, PUSH_POOLED, &[0, 1, 0, 0, 2, 0xbd]);
    append(&mut file, STEPS, &[0, 0]);
    append(&mut file, POP, &[1, 0]);
    append(&mut file, STEPS, &[1, 1, 0]);
    append(&mut file, STEPS, &[]);
    append(&mut file, PUSH, &[0, 0, 0, 2, 0xff, 0xff, 0xff, 0xff]);
    append(&mut file, STEPS, &[1, 0]);
    file
}

/// Cut before every byte; some cuts fall between fields and leave a whole file.
fn cuts(files: &mut Vec<Broken>) {
    for sample in OPENINGS.map(sample) {
        for length in 1..=sample.len() {
            files.push(Broken { kind: "cut field", file: sample[..length].to_vec() });
        }
    }
}

/// Every other length up to one more, and one that is right in its low byte, in either queue.
fn wrong_lengths(files: &mut Vec<Broken>) {
    for (tag, right) in LENGTHS {
        for length in (0..=right + 1).chain([right + 256]).filter(|&length| length != right) {
            for opening in OPENINGS {
                let start = if tag == OPEN || tag == OPEN_POOLED { &[][..] } else { &opening[..] };
                field_of(files, "wrong length", start, tag, length, right);
            }
        }
    }
}

fn steps_lengths(files: &mut Vec<Broken>) {
    for length in [MOST_STEPS - 1, MOST_STEPS, MOST_STEPS + 1] {
        let kind = if length > MOST_STEPS { "steps over-long" } else { "steps at their most" };
        field_of(files, kind, &OPENING, STEPS, length, MOST_STEPS);
    }
    let mut longest = OPENING.to_vec();
    append(&mut longest, STEPS, &vec![0; 0xffff]);
    files.push(Broken { kind: "steps over-long", file: longest });
}

/// A field of a length, with the content as long as it says, and with the right content.
fn field_of(
    files: &mut Vec<Broken>,
    kind: &'static str,
    start: &[u8],
    tag: u8,
    length: usize,
    right: usize,
) {
    let mut whole = start.to_vec();
    append(&mut whole, tag, &vec![0; length]);
    append(&mut whole, STEPS, &[0]);
    let mut lying = start.to_vec();
    lying.push(tag);
    lying.extend_from_slice(&(length as u16).to_be_bytes());
    lying.extend(vec![0; right]);
    files.push(Broken { kind, file: whole });
    files.push(Broken { kind, file: lying });
}

/// Every byte that is no tag, as the first field and after an opening and a step.
fn unknown_tags(files: &mut Vec<Broken>) {
    for tag in (0..=u8::MAX).filter(|tag| !(OPEN..=PUSH_POOLED).contains(tag)) {
        let mut first = Vec::new();
        append(&mut first, tag, &[0, 0]);
        let mut later = OPENING.to_vec();
        append(&mut later, STEPS, &[1]);
        append(&mut later, tag, &[]);
        append(&mut later, STEPS, &[1]);
        files.push(Broken { kind: "unknown tag", file: first });
        files.push(Broken { kind: "unknown tag", file: later });
    }
}

fn before_opening(files: &mut Vec<Broken>) {
    let early: [(u8, &[u8]); 5] = [
        (PUSH, &[0, 1, 0, 1, 0, 0, 0, 1]),
        (PUSH_POOLED, &[0, 1, 0, 0, 0, 1]),
        (POP, &[0, 0]),
        (STEPS, &[0]),
        (STEPS, &[]),
    ];
    for (tag, content) in early {
        for opening in OPENINGS {
            let mut file = Vec::new();
            append(&mut file, tag, content);
            file.extend_from_slice(&opening);
            files.push(Broken { kind: "field before opening", file });
        }
    }
}

fn second_openings(files: &mut Vec<Broken>) {
    let refused = [OPEN, OPEN_POOLED].map(|tag| [tag, 0, 7, 0, 0, 0, 0, 0, 0, 0]);
    for first in OPENINGS {
        for second in OPENINGS.into_iter().chain(refused) {
            for between in [&[][..], &[STEPS, 0, 1, 0], &[POP, 0, 2, 0, 0, STEPS, 0, 1, 0]] {
                let mut file = first.to_vec();
                file.extend_from_slice(between);
                file.extend_from_slice(&second);
                append(&mut file, STEPS, &[0]);
                files.push(Broken { kind: "second opening", file });
            }
        }
    }
}

/// Every side of the limits of 10 and 11, each with right and wrong numbers after it.
fn refused_openings(files: &mut Vec<Broken>) {
    for tasks in [0, 1, 16, 17, 255] {
        for slots in [0_u16, 1, 1_023, 1_024, 1_279, 0xffff] {
            for after in [&[STEPS, 0, 2, 0, 16][..], &OPENING, &[9]] {
                for tag in [OPEN, OPEN_POOLED] {
                    let mut file = Vec::new();
                    let [high, low] = slots.to_be_bytes();
                    append(&mut file, tag, &[tasks, high, low, 0, 0, 0, 5]);
                    file.extend_from_slice(after);
                    files.push(Broken { kind: "opening near limits", file });
                }
            }
        }
    }
}

//! A history of finished calls through the Rust crate's `audit`, as calls and as words.

use crate::bytes::Bytes;
use crate::ours::by_library;
use reference::audit::{self, Finished, Verdict};

/// Mostly small numbers, so that equal events, equal labels and orders that pass are common.
fn call(bytes: &mut Bytes, number: u64) -> Finished {
    let start = 4 * bytes.below(16) + number % 4;
    Finished {
        task: bytes.below(3),
        kind: bytes.near(1),
        side: bytes.near(1),
        label: bytes.near(2),
        answer: 2 + bytes.near(2).min(9),
        start,
        end: start.saturating_add(bytes.near(40)),
    }
}

fn told(verdict: zeppolecape::Verdict) -> Verdict {
    match verdict {
        zeppolecape::Verdict::Passes => Verdict::Passes,
        zeppolecape::Verdict::NoRearrangement => Verdict::Fails(0),
        zeppolecape::Verdict::Fails { position } => Verdict::Fails(position.into()),
    }
}

pub fn compare(bytes: &mut Bytes) {
    let count = bytes.below(70);
    let theirs: Vec<Finished> = (0..count).map(|number| call(bytes, number)).collect();
    let length = if bytes.below(8) == 0 { bytes.below(70) } else { count };
    let order: Vec<u64> = match bytes.below(3) {
        0 => (0..length).map(|_| bytes.near(count)).collect(),
        _ => (1..=length).collect(),
    };
    let ours: Vec<zeppolecape::Finished> =
        theirs
            .iter()
            .map(|&Finished { task, kind, side, label, answer, start, end }| {
                zeppolecape::Finished { task, kind, side, label, answer, start, end }
            })
            .collect();
    let expected = match audit::audit(&theirs, &order) {
        Verdict::Refused => Err(40),
        verdict => Ok(verdict),
    };
    assert_eq!(by_library(zeppolecape::audit(&ours, &order)).map(told), expected);
    let fields = |call: &Finished| {
        [call.task, call.kind, call.side, call.label, call.answer, call.start, call.end]
    };
    let mut words: Vec<u64> = theirs.iter().flat_map(fields).collect();
    words.extend((0..bytes.below(7)).map(|_| 7));
    assert_eq!(
        by_library(zeppolecape::audit_words(&words, &order)).map(told),
        expected,
        "as words"
    );
}

//! Verdicts on histories of finished calls.

use zeppolecape::{audit, Finished, Refusal, Verdict, MOST_CALLS};

/// A label pushed, then two pops of it at once; the second gets it.
fn calls() -> [Finished; 3] {
    let push = Finished { task: 0, kind: 0, side: 1, label: 700, answer: 2, start: 1, end: 3 };
    let left = Finished { kind: 1, side: 0, label: 0, answer: 3, start: 4, end: 11, ..push };
    let right = Finished { task: 1, kind: 1, side: 1, label: 700, answer: 4, start: 5, end: 10 };
    [push, left, right]
}

#[test]
fn verdicts() {
    assert_eq!(audit(&calls(), &[1, 3, 2]), Ok(Verdict::Passes));
    assert_eq!(audit(&calls(), &[1, 2, 3]), Ok(Verdict::Fails { position: 2 }));
    assert_eq!(audit(&calls(), &[2, 1, 3]), Ok(Verdict::Fails { position: 1 }));
    assert_eq!(audit(&calls(), &[1, 3, 3]), Ok(Verdict::NoRearrangement));
    assert_eq!(audit(&calls(), &[1, 3]), Ok(Verdict::NoRearrangement));
    assert_eq!(audit(&[], &[]), Ok(Verdict::Passes));
    let bad = Finished { answer: 5, ..calls()[0] };
    assert_eq!(audit(&[bad], &[1]), Err(Refusal::BadHistory));
    assert_eq!(Refusal::BadHistory.to_string(), "40: not a history that can be judged");
}

#[test]
fn as_many_calls_as_fit() {
    let pop = |n: u64| Finished {
        kind: 1,
        answer: 3,
        start: 2 * n,
        end: 2 * n + 1,
        ..Finished::default()
    };
    let calls: Vec<Finished> = (0..65).map(pop).collect();
    let order: Vec<u64> = (1..=65).collect();
    assert_eq!(audit(&calls[..MOST_CALLS], &order[..MOST_CALLS]), Ok(Verdict::Passes));
    assert_eq!(audit(&calls, &order), Err(Refusal::BadHistory));
}

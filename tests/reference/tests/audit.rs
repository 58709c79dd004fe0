//! Document 02, #103, sentence by sentence: what passes, which position is named, what is 40.

use reference::audit::{audit, Finished, Verdict, EMPTY, MOST_CALLS, POPPED, PUSHED};
use Verdict::{Fails, Passes, Refused};

fn push(side: u64, label: u64, start: u64, end: u64) -> Finished {
    Finished { task: 0, kind: 0, side, label, answer: PUSHED, start, end }
}

fn pop(side: u64, label: u64, start: u64, end: u64) -> Finished {
    Finished { task: 1, kind: 1, side, label, answer: POPPED, start, end }
}

fn empty(start: u64, end: u64) -> Finished {
    Finished { answer: EMPTY, ..pop(0, 99, start, end) }
}

#[test]
fn an_empty_history_passes() {
    assert_eq!(audit(&[], &[]), Passes);
    assert_eq!(audit(&[], &[1]), Fails(0));
}

#[test]
fn both_ends_of_a_plain_queue() {
    let calls = [
        push(1, 10, 1, 2),
        push(1, 20, 3, 4),
        push(0, 30, 5, 6),
        pop(0, 30, 7, 8),
        pop(1, 20, 9, 10),
    ];
    assert_eq!(audit(&calls, &[1, 2, 3, 4, 5]), Passes);
    let wrong = [calls[0], calls[1], calls[2], pop(0, 10, 7, 8), calls[4]];
    assert_eq!(audit(&wrong, &[1, 2, 3, 4, 5]), Fails(4));
}

#[test]
fn a_label_counts_unless_empty() {
    assert_eq!(audit(&[empty(1, 2)], &[1]), Passes);
    assert_eq!(audit(&[push(0, 7, 1, 2), pop(1, 8, 3, 4)], &[1, 2]), Fails(2));
    assert_eq!(audit(&[push(0, 7, 1, 2), empty(3, 4)], &[1, 2]), Fails(2));
}

#[test]
fn overlapping_calls_may_stand_either_way() {
    let calls = [push(0, 7, 1, 5), empty(2, 6)];
    assert_eq!(audit(&calls, &[2, 1]), Passes);
    assert_eq!(audit(&calls, &[1, 2]), Fails(2));
    let apart = [push(0, 7, 1, 2), empty(5, 6)];
    assert_eq!(audit(&apart, &[2, 1]), Fails(1));
}

#[test]
fn the_earlier_of_two_wrong_positions() {
    // Position 1 stands before a call answered before its start; position 2 has another answer.
    let calls = [push(0, 7, 1, 2), empty(3, 4), pop(0, 8, 5, 6)];
    assert_eq!(audit(&calls, &[2, 1, 3]), Fails(1));
    // Position 1 has another answer; position 2 stands too early.
    let calls = [pop(0, 7, 1, 4), empty(8, 9), push(0, 5, 2, 3)];
    assert_eq!(audit(&calls, &[1, 2, 3]), Fails(1));
}

#[test]
fn an_order_names_every_call_once() {
    let calls = [empty(1, 2), empty(3, 4)];
    for order in [&[][..], &[1], &[1, 1], &[0, 1], &[1, 3], &[1, 2, 2], &[u64::MAX, 1]] {
        assert_eq!(audit(&calls, order), Fails(0), "{order:?}");
    }
}

#[test]
fn what_cannot_be_judged() {
    let one = empty(3, 4);
    let bad = [
        Finished { kind: 2, ..one },
        Finished { side: 2, ..one },
        Finished { answer: 1, ..one },
        Finished { answer: 5, ..one },
        empty(4, 4),
        empty(5, 4),
    ];
    for call in bad {
        assert_eq!(audit(&[call], &[]), Refused, "{call:?}");
    }
    for call in [empty(3, 9), empty(2, 4), empty(4, 9), empty(2, 3)] {
        assert_eq!(audit(&[one, call], &[]), Refused, "{call:?}");
    }
    assert_eq!(audit(&[Finished { answer: PUSHED, ..one }], &[1]), Fails(1));
}

#[test]
fn as_many_calls_as_there_may_be() {
    let calls: Vec<Finished> = (0..=MOST_CALLS as u64).map(|n| empty(2 * n, 2 * n + 1)).collect();
    let order: Vec<u64> = (1..=calls.len() as u64).collect();
    assert_eq!(audit(&calls[1..], &order[..MOST_CALLS]), Passes);
    assert_eq!(audit(&calls, &order), Refused);
}

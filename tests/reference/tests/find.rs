//! Where labels wait, on small queues worked out by hand.

use reference::find::Found;
use reference::refusal::Refusal;
use reference::tables::Storage;

/// Slots 2, 3, 1 with labels 7, 8, 7 from left to right.
fn three_waiting(status: u64) -> Storage {
    let mut storage = Storage::fitting(1, 3);
    storage.lend().open(1, 3, 0).expect("opens");
    (storage.labels[2], storage.labels[3], storage.labels[1]) = (7, 8, 7);
    (storage.lefts[3], storage.lefts[1]) = (2, 3);
    (storage.rights[2], storage.rights[3]) = (3, 1);
    storage.control.anchor = status << 30 | 2 << 15 | 1;
    storage
}

#[test]
fn the_leftmost_counts_from_either_end() {
    for status in 0..=2 {
        let found = three_waiting(status).lend().shared.find(&[8, 7, 9, 7]);
        let positions = vec![Some(2), Some(1), None, Some(1)];
        assert_eq!(found, Ok(Found { rows: 3, positions }), "status {status}");
    }
}

#[test]
fn nothing_asked_is_a_walk_all_the_same() {
    assert_eq!(three_waiting(0).lend().shared.find(&[]), Ok(Found { rows: 3, positions: vec![] }));
    let mut storage = three_waiting(0);
    storage.lefts[3] = 1 << 20;
    assert_eq!(storage.lend().shared.find(&[]), Err(Refusal::Unsound));
}

#[test]
fn refusals_come_in_order() {
    let mut storage = three_waiting(0);
    storage.lefts[3] = 0;
    assert_eq!(storage.lend().shared.find(&[7]), Err(Refusal::Unsound));
    storage.labels.truncate(3);
    assert_eq!(storage.lend().shared.find(&[7]), Err(Refusal::Short));
    assert_eq!(storage.lend().shared.find(&[7; 33]), Err(Refusal::ManyAsked));
    storage.control.slots = 1_024;
    assert_eq!(storage.lend().shared.find(&[7; 33]), Err(Refusal::Unsound));
}

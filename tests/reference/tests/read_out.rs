//! The labels waiting written into two tables, on small queues worked out by hand.

use reference::refusal::Refusal;
use reference::tables::Storage;

/// Slots 2, 3, 1 with labels 7, 8, 9 from left to right.
fn three_waiting(status: u64) -> Storage {
    let mut storage = Storage::fitting(1, 3);
    storage.lend().open(1, 3, 0).expect("opens");
    (storage.labels[2], storage.labels[3], storage.labels[1]) = (7, 8, 9);
    (storage.lefts[3], storage.lefts[1]) = (2, 3);
    (storage.rights[2], storage.rights[3]) = (3, 1);
    storage.control.anchor = status << 30 | 2 << 15 | 1;
    storage
}

#[test]
fn from_left_to_right_whichever_end_the_walk_begins_at() {
    for status in 0..=2 {
        let (mut slots, mut labels) = ([4; 4], [5; 5]);
        let told = three_waiting(status).lend().shared.read_out(&mut slots, &mut labels);
        assert_eq!(told, Ok(3), "status {status}");
        assert_eq!((slots, labels), ([2, 3, 1, 4], [7, 8, 9, 5, 5]), "status {status}");
    }
}

#[test]
fn the_unfinished_end_is_not_looked_at() {
    let mut storage = three_waiting(1);
    storage.rights = vec![0; 4];
    assert_eq!(storage.lend().shared.read_out(&mut [0; 3], &mut [0; 3]), Ok(3));
    let mut storage = three_waiting(2);
    storage.lefts = vec![0; 4];
    assert_eq!(storage.lend().shared.read_out(&mut [0; 3], &mut [0; 3]), Ok(3));
}

#[test]
fn refusals_come_in_order_and_write_nothing() {
    let (mut slots, mut labels) = ([4; 3], [5; 3]);
    let mut storage = three_waiting(0);
    let short = storage.lend().shared.read_out(&mut slots[..2], &mut labels);
    assert_eq!(short, Err(Refusal::Short));
    let short = storage.lend().shared.read_out(&mut slots, &mut labels[..2]);
    assert_eq!(short, Err(Refusal::Short));
    storage.lefts[3] = 0;
    let broken = storage.lend().shared.read_out(&mut slots[..2], &mut labels);
    assert_eq!(broken, Err(Refusal::Unsound));
    storage.labels.truncate(3);
    let short = storage.lend().shared.read_out(&mut slots, &mut labels);
    assert_eq!(short, Err(Refusal::Short));
    storage.control.slots = 1_024;
    let unsound = storage.lend().shared.read_out(&mut slots, &mut labels);
    assert_eq!(unsound, Err(Refusal::Unsound));
    assert_eq!((slots, labels), ([4; 3], [5; 3]));
}

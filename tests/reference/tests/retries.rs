//! Document 02, #101: each task's count of its failed changes.

use reference::machine::Moved;
use reference::tables::{Record, Storage};

/// A queue for two tasks, with other counts in the records lent beyond.
fn opened(pooled: bool) -> Storage {
    let mut storage = Storage::default();
    storage.records.iter_mut().for_each(|record| record.retries = 9);
    let mut tables = storage.lend();
    let opening = if pooled { tables.open_pooled(2, 3, 0) } else { tables.open(2, 3, 0) };
    opening.expect("opens");
    storage
}

#[test]
fn openings_zero_the_counts_of_the_tasks() {
    for pooled in [false, true] {
        let storage = opened(pooled);
        assert_eq!([0, 1, 2].map(|task| storage.records[task].retries), [0, 0, 9]);
    }
}

#[test]
fn starts_and_answers_keep_the_counts() {
    for pooled in [false, true] {
        let mut storage = opened(pooled);
        (storage.records[0].retries, storage.records[1].retries) = (5, 6);
        let mut tables = storage.lend();
        let start = if pooled { tables.push_pooled(0, 1, 10) } else { tables.push(0, 1, 1, 10) };
        start.expect("starts");
        assert_eq!(tables.run(0, 100).0, Ok(Moved::Pushed));
        tables.pop(1, 1).expect("starts");
        assert_eq!(tables.run(1, 100).0, Ok(Moved::Popped { slot: 1, label: 10 }));
        let left = [5, 6].map(|retries| Record { retries, ..Record::default() });
        assert_eq!(storage.records[..2], left);
    }
}

#[test]
fn the_report_lists_the_tasks_alone() {
    let mut storage = opened(false);
    (storage.records[0].retries, storage.records[1].retries) = (u64::MAX, 6);
    let mut expected = [0; 16];
    expected[..2].copy_from_slice(&[u64::MAX, 6]);
    assert_eq!(storage.lend().report().expect("reports").retries, expected);
}

#[test]
fn counts_stay_at_their_most() {
    let mut storage = Storage::default();
    storage.lend().open(2, 2, 0).expect("opens");
    storage.lend().push(0, 0, 1, 1).expect("starts");
    storage.lend().push(1, 0, 2, 2).expect("starts");
    for task in [0, 1, 0] {
        storage.lend().step(task).expect("steps");
    }
    let most = 0xffff_ffff;
    for (retries, then) in [(5, 6), (most - 1, most), (most, most), (u64::MAX, u64::MAX)] {
        let mut storage = storage.clone();
        storage.records[1].retries = retries;
        assert_eq!(storage.lend().step(1), Ok(Moved::Running(3)));
        assert_eq!((storage.records[0].retries, storage.records[1].retries), (0, then));
    }
}

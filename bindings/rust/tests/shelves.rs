//! Queues saved on shelves, and returned to.

use zeppolecape::Answer::{Popped, Pushed};
use zeppolecape::{Queue, Refusal, Shelves, Side};

#[test]
fn a_queue_goes_back_to_its_shelf() {
    let mut queue = Queue::open(2, 4, 0).unwrap();
    let mut shelves = Shelves::new(2, 4);
    assert_eq!(queue.return_to(&shelves, 8), Err(Refusal::NoShelf));
    assert_eq!(queue.return_to(&shelves, 7), Err(Refusal::Unfilled));
    queue.push(0, Side::Right, 2, 700).unwrap();
    queue.finish(0).unwrap();
    queue.pop(1, Side::Left).unwrap();
    queue.step(1).unwrap();
    queue.save(&mut shelves, 7).unwrap();
    assert_eq!(queue.finish(1), Ok(Popped { slot: 2, label: 700 }));
    assert_eq!(queue.return_to(&shelves, 7), Ok(()));
    assert_eq!(queue.finish(1), Ok(Popped { slot: 2, label: 700 }));
    assert_eq!(queue.save(&mut shelves, 8), Err(Refusal::NoShelf));
    assert_eq!(queue.save(&mut Shelves::new(1, 4), 0), Err(Refusal::Short));
    let mut small = Queue::open(2, 3, 0).unwrap();
    assert_eq!(small.return_to(&shelves, 7), Err(Refusal::Short));
    assert_eq!(Refusal::Unfilled.to_string(), "44: the shelf was never filled");
}

/// The records beyond the tasks of the queue on the shelf keep their calls, and are nobody's.
#[test]
fn back_to_fewer_tasks() {
    let mut shelves = Shelves::new(3, 4);
    let mut small = Queue::open(2, 3, 0).unwrap();
    small.push(1, Side::Right, 3, 700).unwrap();
    small.save(&mut shelves, 0).unwrap();
    let mut queue = Queue::open(3, 4, 0).unwrap();
    queue.pop(2, Side::Left).unwrap();
    queue.return_to(&shelves, 0).unwrap();
    assert_eq!(queue.records(), small.records());
    assert_eq!(queue.report(), small.report());
    assert_eq!(queue.step(2), Err(Refusal::NoTask));
    assert_eq!(queue.renew(0), Ok(vec![None, Some(Pushed)]));
    assert_eq!(queue.waiting(), [(1, 700)]);
}

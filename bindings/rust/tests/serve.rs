//! A list carried out in one call, as the header's example in short goes, and its refusals.

use zeppolecape::{Answer, Queue, Refusal, Request, Side, ANSWER_WORDS, REQUEST_WORDS};

const STEP: Request = Request::Step { task: 0 };
const POP: Request = Request::Pop { task: 1, side: Side::Left };

#[test]
fn a_label_comes_and_goes() {
    let mut requests = vec![Request::PushPooled { task: 0, side: Side::Right, label: 700 }];
    requests.extend([STEP; 5]);
    requests.push(Request::Push { task: 0, side: Side::Left, slot: 1, label: 9 });
    requests.push(POP);
    requests.extend([Request::Step { task: 1 }; 6]);
    let (queue, answers) = Queue::served(true, 2, 3, 0, &requests).unwrap();
    let running = |places: &[u64]| places.iter().map(|&place| Ok(Answer::Running(place))).collect();
    let mut expected: Vec<Result<Answer, Refusal>> = running(&[12, 13, 14, 1, 2]);
    expected.extend([Ok(Answer::Pushed), Err(Refusal::WrongPush)]);
    expected.extend::<Vec<_>>(running(&[1, 2, 11, 15, 16, 17]));
    expected.push(Ok(Answer::Popped { slot: 1, label: 700 }));
    assert_eq!(answers, expected);
    assert_eq!(queue.report().waiting, 0);
}

#[test]
fn a_refused_opening_serves_nothing() {
    assert_eq!(Queue::served(false, 0, 3, 0, &[POP]).unwrap_err(), Refusal::BadTasks);
    assert_eq!(Queue::served(true, 1, 1_024, 0, &[POP]).unwrap_err(), Refusal::BadSlots);
}

#[test]
fn an_empty_list_opens() {
    let (queue, answers) = Queue::served(false, 16, 1_023, 5, &[]).unwrap();
    assert_eq!((answers.len(), queue.report().anchor.tag), (0, 5));
    assert_eq!((STEP.words().len(), REQUEST_WORDS, ANSWER_WORDS), (5, 5, 3));
}

//! A first program: task 0 pushes label 700, task 1 pops it.
use zeppolecape::{Answer, Queue, Refusal, Side};

fn main() -> Result<(), Refusal> {
    let mut queue = Queue::open_pooled(2, 3, 0)?; // tasks, slots, first tag
    queue.push_pooled(0, Side::Right, 700)?; // task 0 starts a push at the right
    let mut answer = queue.step(0)?; // one touch; other tasks may step in between
    while matches!(answer, Answer::Running(_)) {
        answer = queue.step(0)?;
    }
    if answer == Answer::Pushed {
        println!("task 0: pushed");
    }
    queue.pop(1, Side::Left)?; // task 1 starts a pop at the left
    let answer = queue.finish(1)?; // and is stepped until it answers
    if let Answer::Popped { label, .. } = answer {
        println!("task 1: popped {label}");
    }
    Ok(())
}

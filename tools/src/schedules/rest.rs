//! What a run leaves: the queue with its two half-done calls, and the run itself, to go on from there.

use super::each;
use super::outcome::Told;
use crate::play::Play;
use crate::queue::{Library, Machine};
use crate::run::{Operation, Run};
use crate::say::Stop;
use crate::words::side;
use zeppolecape::{Answer, Schedule};

pub struct Rest {
    pub name: String,
    pub queue: Library,
    operations: Vec<Operation>,
}

impl Rest {
    /// The run carried out. A refused start or step is passed over, as a run goes on after it.
    pub fn of(run: Run) -> Result<Rest, Stop> {
        let mut play = Play::of(Library::default());
        let mut operations = Vec::new();
        let name = run.name().to_string();
        play.to_its_end(run, |operation| operations.push(operation))?;
        Ok(Rest { name, queue: play.queue, operations })
    }

    /// What becomes of the two calls in a schedule, tried on a copy.
    pub fn told(&self, schedule: &Schedule) -> Told {
        let mut queue = self.queue.clone();
        let mut answers = [None; 2];
        for &task in &schedule.tasks {
            match queue.step(task as u8) {
                Ok(Answer::Running(_)) | Err(_) => {}
                Ok(answer) => answers[task] = Some(answer),
            }
        }
        let waiting =
            queue.waiting().map(|entries| entries.into_iter().map(|entry| entry.1).collect());
        Told { answers, ending: schedule.ending, waiting }
    }

    /// Order N as a run in text form.
    pub fn run(&self, number: u64) -> Result<String, Stop> {
        let mut found = None;
        let count = each(self, |at, schedule| match at == number {
            true => {
                found = Some(schedule.clone());
                Err(Stop::Enough)
            }
            false => Ok(()),
        });
        match (found, count) {
            (Some(schedule), _) => Ok(self.with(number, &schedule)),
            (None, Ok(count)) => {
                Err(Stop::failed(format!("there is no order {number}; there are {count}")))
            }
            (None, Err(stop)) => Err(stop),
        }
    }

    /// The run, and then a schedule of its calls.
    pub fn with(&self, number: u64, schedule: &Schedule) -> String {
        let mut text = String::new();
        let mut steps = Vec::new();
        for &operation in &self.operations {
            match operation {
                Operation::Step { task } => steps.push(task),
                _ => text += &format!("{}{}\n", steps_line(&mut steps), line(operation)),
            }
        }
        text += &steps_line(&mut steps);
        text += &format!("# order {number}\n");
        let mut order = schedule.tasks.iter().map(|&task| task as u8).collect();
        text + &steps_line(&mut order)
    }
}

/// A step line for the tasks, which are then used up; nothing where there are none.
fn steps_line(tasks: &mut Vec<u8>) -> String {
    let runs = tasks.chunk_by(|one, other| one == other).map(|run| match run {
        [task] => format!(" {task}"),
        _ => format!(" {}*{}", run[0], run.len()),
    });
    let words: String = runs.collect();
    tasks.clear();
    if words.is_empty() {
        return words;
    }
    format!("step{words}\n")
}

/// An operation in text form.
fn line(operation: Operation) -> String {
    match operation {
        Operation::Open { pooled, tasks, slots, first_tag } => {
            format!("open {tasks} {slots} {first_tag}{}", if pooled { " pooled" } else { "" })
        }
        Operation::Push { task, side: end, slot, label } => {
            let slot = slot.map_or(String::new(), |slot| format!("{slot} "));
            format!("push {task} {} {slot}{label}", text_side(end))
        }
        Operation::Pop { task, side: end } => format!("pop {task} {}", text_side(end)),
        Operation::Step { task } => format!("step {task}"),
        Operation::Malformed => String::new(),
    }
}

/// A side in text form: a refused one is its number.
fn text_side(number: u8) -> String {
    match number {
        0 | 1 => side(number.into()),
        _ => number.to_string(),
    }
}

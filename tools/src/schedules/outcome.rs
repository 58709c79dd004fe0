//! What becomes of two half-done calls: the outcomes, and how many of the orders lead to each.

use super::rest::Rest;
use super::{each, ending, steps};
use crate::say::Stop;
use crate::words::{self, refused};
use std::fmt;
use zeppolecape::{Answer, Ending, Refusal, Schedule};

/// An outcome: what each call was answered, how the schedule ended, and the labels waiting then.
#[derive(Clone, Debug, PartialEq, Eq)]
pub struct Told {
    pub answers: [Option<Answer>; 2],
    pub ending: Ending,
    pub waiting: Result<Vec<u32>, Refusal>,
}

impl Told {
    /// An answer in the words of the list of schedules.
    pub fn traced(answer: Answer) -> String {
        match answer {
            Answer::Pushed => "pushed".into(),
            Answer::Empty => "empty".into(),
            Answer::Popped { slot, label } => format!("popped {slot} {label}"),
            Answer::NoFreeSlot => "noslot".into(),
            Answer::Running(place) => format!("at{place}"),
        }
    }

    /// The labels waiting afterwards.
    pub fn waits(&self) -> String {
        match &self.waiting {
            Ok(labels) if labels.is_empty() => "nothing".to_string(),
            Ok(labels) => {
                let labels: Vec<String> = labels.iter().map(u32::to_string).collect();
                labels.join(" ")
            }
            Err(why) => refused(*why),
        }
    }
}

impl fmt::Display for Told {
    fn fmt(&self, out: &mut fmt::Formatter<'_>) -> fmt::Result {
        let answers = [0, 1].map(|task| match self.answers[task] {
            Some(answer) => format!("task {task} {}", words::answer(answer)),
            None => format!("task {task} not answered"),
        });
        write!(out, "{}; waiting {}{}", answers.join(", "), self.waits(), ending(self.ending))
    }
}

/// One of the orders that lead to an outcome.
#[derive(Clone, Debug)]
pub struct Order {
    pub number: u64,
    pub schedule: Schedule,
}

impl fmt::Display for Order {
    fn fmt(&self, out: &mut fmt::Formatter<'_>) -> fmt::Result {
        write!(out, "order {} ({})", self.number, steps(&self.schedule))
    }
}

#[derive(Clone, Debug)]
pub struct Outcome {
    pub told: Told,
    pub orders: u64,
    pub first: Order,
    pub shortest: Order,
}

/// The outcomes in the order in which they first occur.
pub struct Outcomes {
    pub orders: u64,
    pub all: Vec<Outcome>,
}

impl Outcomes {
    pub fn of(rest: &Rest) -> Result<Outcomes, Stop> {
        let mut all: Vec<Outcome> = Vec::new();
        let orders = each(rest, |number, schedule| {
            let told = rest.told(schedule);
            let order = || Order { number, schedule: schedule.clone() };
            match all.iter_mut().find(|outcome| outcome.told == told) {
                None => all.push(Outcome { told, orders: 1, first: order(), shortest: order() }),
                Some(known) => {
                    known.orders += 1;
                    if schedule.tasks.len() < known.shortest.schedule.tasks.len() {
                        known.shortest = order();
                    }
                }
            }
            Ok(())
        })?;
        Ok(Outcomes { orders, all })
    }
}

/// `1 outcome`, `2 outcomes`.
pub fn counted(count: u64, what: &str) -> String {
    format!("{count} {what}{}", if count == 1 { "" } else { "s" })
}

impl fmt::Display for Outcomes {
    fn fmt(&self, out: &mut fmt::Formatter<'_>) -> fmt::Result {
        for Outcome { told, orders, first, shortest } in &self.all {
            write!(out, "{}: {told}. First {first}", counted(*orders, "order"))?;
            match first.number == shortest.number {
                true => writeln!(out, ", none shorter.")?,
                false => writeln!(out, ", shortest {shortest}.")?,
            }
        }
        let outcomes = counted(self.all.len() as u64, "outcome");
        writeln!(out, "{}, {outcomes}", counted(self.orders, "order"))
    }
}

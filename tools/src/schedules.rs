//! Every order in which the two half-done calls at the end of a run can be stepped, by the library's
//! call, and what becomes of the calls in each.

mod outcome;
mod page;
mod rest;

use crate::run::Run;
use crate::say::{printable, Stop};
use crate::words::refused;
use outcome::{Outcomes, Told};
use rest::Rest;
use std::io::{self, BufWriter, Write};
use std::time::{Duration, Instant};
use zeppolecape::{Ending, Schedule, SCHEDULE_WORDS};

pub const USAGE: &str = "\
usage: tools/schedules [--summary | --run N | --html] [RUN]

Prints every order in which the two half-done calls at the end of a run can be stepped, one a line,
smallest first: the task of each step, then what each call answers; - for a call that is not answered,
with cut (after 48 steps) or refused behind. The last line counts them. RUN is a run in the text form
of tools/runfile, or a run file; standard input where it is not named, or -. It must leave exactly
two tasks, both busy, and at most four labels waiting.

  --summary   a line an outcome: the answers, what waits afterwards, how many of the orders lead to
              it, and the first and the shortest of them
  --run N     order N, counted from 1, as a run in text form, for tools/view
  --html      one page for a browser: every outcome, with its first and its shortest order to look at

While a long search goes on, how far it is stands on standard error.
Status 0; 1 where the run leaves no such queue or there is no order N; 2 for a wrong command line.";

enum Form {
    Lines,
    Summary,
    Run(u64),
    Html,
}

/// Carries out what the command line asks for.
pub fn work(arguments: Vec<String>) -> Result<u8, Stop> {
    let (mut path, mut form) = (None, Form::Lines);
    let mut words = arguments.into_iter();
    while let Some(word) = words.next() {
        match word.as_str() {
            "--help" | "-h" => return Err(Stop::Help),
            "--summary" => form = Form::Summary,
            "--html" => form = Form::Html,
            "--run" => {
                let number = words.next().and_then(|number| number.parse().ok());
                form = Form::Run(number.ok_or_else(|| Stop::usage("--run takes a number"))?);
            }
            _ if word.starts_with('-') && word != "-" => {
                return Err(Stop::usage(format!("unknown option {}", printable(word.as_bytes()))));
            }
            _ if path.is_some() => return Err(Stop::usage("one run at a time")),
            _ => path = Some(word),
        }
    }
    let rest = Rest::of(Run::open(path.as_deref())?)?;
    let mut out = BufWriter::new(io::stdout().lock());
    match form {
        Form::Lines => lines(&rest, &mut out)?,
        Form::Summary => write!(out, "{}", Outcomes::of(&rest)?)?,
        Form::Run(number) => write!(out, "{}", rest.run(number)?)?,
        Form::Html => page::write(&rest, &Outcomes::of(&rest)?, &mut out)?,
    }
    out.flush()?;
    Ok(0)
}

/// Every schedule, smallest first, handed to `each` with its number from 1; says now and then how far
/// the search is.
fn each(
    rest: &Rest,
    mut each: impl FnMut(u64, &Schedule) -> Result<(), Stop>,
) -> Result<u64, Stop> {
    let mut queue = rest.queue.clone();
    let mut memory = [0; SCHEDULE_WORDS];
    let (mut count, mut told_at) = (0, Instant::now());
    loop {
        let next = queue.lend().next_schedule(&mut memory);
        let Some(schedule) = next.map_err(|why| Stop::failed(refused(why)))? else {
            return Ok(count);
        };
        count += 1;
        each(count, &schedule)?;
        if told_at.elapsed() >= Duration::from_secs(1) {
            eprintln!("schedules: {count} so far, at {}", steps(&schedule));
            told_at = Instant::now();
        }
    }
}

/// A schedule, a digit a step.
fn steps(schedule: &Schedule) -> String {
    schedule.tasks.iter().map(|task| task.to_string()).collect()
}

fn lines(rest: &Rest, out: &mut impl Write) -> Result<(), Stop> {
    let mut counts = [0u64; 3];
    let all = each(rest, |_, schedule| {
        let told = rest.told(schedule);
        counts[schedule.ending as usize] += 1;
        let [first, second] = told.answers.map(|answer| answer.map_or("-".into(), Told::traced));
        let ending = ["", "  cut", "  refused"][schedule.ending as usize];
        Ok(writeln!(out, "{}  0 {first}  1 {second}{ending}", steps(schedule))?)
    })?;
    let [answered, cut, refused] = counts;
    Ok(writeln!(out, "{all} schedules: {answered} answered, {cut} cut, {refused} refused")?)
}

/// What a schedule that ends so is called in a sentence; nothing where both calls are answered.
fn ending(ending: Ending) -> &'static str {
    match ending {
        Ending::Answered => "",
        Ending::Cut => ", cut after 48 steps",
        Ending::Stopped => ", the last step refused",
    }
}

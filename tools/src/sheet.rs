//! Whether the labels that a run leaves waiting keep an order sheet, by the library's call; of a broken
//! pair where both wait, and the rules that lead from one to the other.

mod paper;

use crate::play::Play;
use crate::queue::{Entry, Library};
use crate::run::Run;
use crate::say::{printable, Stop};
use crate::words::refused;
use paper::Paper;
use std::io::{self, Write};
use zeppolecape::{SheetVerdict, MOST_LISTED, MOST_RULES};

pub const USAGE: &str = "\
usage: tools/sheet RUN SHEET

Tells whether the labels that a run leaves waiting keep an order sheet. RUN is a run in the text form
of tools/runfile, or a run file; SHEET a text; one of the two may be -, standard input. # begins a
comment.

  label 700 carton      label 700, called carton from here on; the name may be left out
  carton before lid     a rule: every copy of carton prints before any copy of lid
  700 before 702        the same by numbers

A label is listed where it first stands: at most 32 of them, and at most 128 rules. Rules chain, also
through labels that do not wait.

Prints kept, or the first broken pair, where both wait (counted from the left), and the rules that
lead from one to the other. Status 0: kept; 1: broken; 2: it cannot be told.";

/// Carries out what the command line asks for; the status is the verdict.
pub fn work(arguments: Vec<String>) -> Result<u8, Stop> {
    for word in &arguments {
        match word.as_str() {
            "--help" | "-h" => return Err(Stop::Help),
            _ if word.starts_with('-') && word != "-" => {
                return Err(Stop::usage(format!("unknown option {}", printable(word.as_bytes()))));
            }
            _ => {}
        }
    }
    let [run, sheet] = &arguments[..] else {
        return Err(Stop::usage("a run and a sheet are wanted"));
    };
    if run == "-" && sheet == "-" {
        return Err(Stop::usage("only one of the two can be standard input"));
    }
    match told(run, sheet) {
        Err(Stop::Failed(what)) => {
            eprintln!("sheet: {what}");
            Ok(2)
        }
        told => told,
    }
}

fn told(run: &str, sheet: &str) -> Result<u8, Stop> {
    let paper = Paper::open(sheet)?;
    let mut play = Play::of(Library::default());
    play.to_its_end(Run::open(Some(run))?, |_| ())?;
    let waiting = play.waiting().map_err(|why| Stop::failed(refused(why)))?;
    let verdict = play.queue.lend().sheet(&paper.labels, &paper.words());
    let mut out = io::stdout().lock();
    match verdict {
        Ok(SheetVerdict::Kept) => {
            writeln!(out, "kept")?;
            Ok(0)
        }
        Ok(SheetVerdict::Broken { first, second }) => {
            write!(out, "{}", broken(&paper, &waiting, first as usize, second as usize))?;
            Ok(1)
        }
        Err(why) => Err(Stop::failed(format!("{}{}", refused(why), too_much(&paper)))),
    }
}

/// A broken pair: its labels, where they wait, and the chain of rules between them.
fn broken(paper: &Paper, waiting: &[Entry], first: usize, second: usize) -> String {
    let [before, behind] = [first, second].map(|place| paper.name(place));
    let mut text = match first == second {
        true => format!("broken: {before} must print before itself\n"),
        false => format!("broken: {before} must print before {behind}\n"),
    };
    let mut pair = vec![first, second];
    pair.dedup();
    for place in pair {
        let label = paper.labels[place - 1];
        let places: Vec<String> = (1..)
            .zip(waiting)
            .filter(|(_, entry)| entry.1 == label)
            .map(|(at, _)| at.to_string())
            .collect();
        text += &format!("  {} waits at {}\n", paper.name(place), places.join(", "));
    }
    for rule in paper.chain(first, second) {
        let [one, other] = [rule.first, rule.second].map(|place| paper.name(place));
        text += &format!("  line {}: {one} before {other}\n", rule.line);
    }
    text
}

/// Which of its causes a refusal 46 has; a text cannot list a label twice or point outside its list.
fn too_much(paper: &Paper) -> String {
    let (labels, rules) = (paper.labels.len(), paper.rules.len());
    match (labels > MOST_LISTED, rules > MOST_RULES) {
        (true, _) => format!(": {labels} labels, of at most {MOST_LISTED}"),
        (_, true) => format!(": {rules} rules, of at most {MOST_RULES}"),
        _ => String::new(),
    }
}

//! Whether a history of finished calls can be true, by the library's audit, and why not, in words.

mod find;
mod plain;
mod reason;

use crate::history::History;
use crate::say::{printable, Stop};
use find::Search;
use std::io::{self, Write};
use zeppolecape::{audit, Verdict};

pub const USAGE: &str = "\
usage: tools/verdict [--find] [HISTORY]

Tells whether a history of finished calls can be true: whether a plain queue that serves the calls in
the claimed order gives each the answer that it got, and no call stands before one that was answered
before it started. HISTORY is a text, standard input where it is not named, or -: a call a line, then
the order; # begins a comment.

  # task kind side label answer start end
  0 push right 700 pushed 1 3
  1 pop left 700 popped 4 7
  2 pop left - empty 5 8
  order 1 2 3

Calls are numbered from 1 in the order of their lines; at most 64. Events are any numbers, later ones
larger. With empty the label may be -.

  --find   looks for an order that passes, whatever order the text claims, and prints it

Status 0: it passes (an order was found); 1: it fails (no order passes); 2: it is no history, cannot
be read, or the search gave up.";

/// Carries out what the command line asks for; the status is the verdict.
pub fn work(arguments: Vec<String>) -> Result<u8, Stop> {
    let (mut path, mut find) = (None, false);
    for word in arguments {
        match word.as_str() {
            "--help" | "-h" => return Err(Stop::Help),
            "--find" => find = true,
            _ if word.starts_with('-') && word != "-" => {
                return Err(Stop::usage(format!("unknown option {}", printable(word.as_bytes()))));
            }
            _ if path.is_some() => return Err(Stop::usage("one history at a time")),
            _ => path = Some(word),
        }
    }
    let judged = History::open(path.as_deref()).and_then(|history| {
        if find {
            found(&history)
        } else {
            judged(&history)
        }
    });
    match judged {
        Err(Stop::Failed(what)) => {
            eprintln!("verdict: {what}");
            Ok(2)
        }
        told => told,
    }
}

/// The claimed order's verdict on standard output.
fn judged(history: &History) -> Result<u8, Stop> {
    let order = history.order.as_ref().ok_or_else(|| {
        Stop::failed("the order is missing; it is the last line, `order` and the calls' numbers")
    })?;
    let mut out = io::stdout().lock();
    match audit(&history.calls, order) {
        Ok(Verdict::Passes) => writeln!(out, "passes").map(|()| Ok(0))?,
        Ok(Verdict::Fails { position }) => {
            let reason = reason::wrong(history, order, position as usize);
            writeln!(out, "fails at {position}\n{reason}").map(|()| Ok(1))?
        }
        Ok(Verdict::NoRearrangement) => {
            let reason = reason::misnamed(history, order);
            writeln!(out, "no rearrangement: {reason}").map(|()| Ok(1))?
        }
        Err(_) => Err(no_history(history)),
    }
}

/// An order that passes, on standard output.
fn found(history: &History) -> Result<u8, Stop> {
    if audit(&history.calls, &[]).is_err() {
        return Err(no_history(history));
    }
    let order = match find::order(&history.calls) {
        Search::Found(order) => order,
        Search::None => {
            writeln!(io::stdout(), "no order passes")?;
            return Ok(1);
        }
        Search::GaveUp(states) => {
            return Err(Stop::failed(format!("gave up after {states} states of the queue")))
        }
    };
    // The search is the tool's; that the order passes is said by the library alone.
    match audit(&history.calls, &order) {
        Ok(Verdict::Passes) => {}
        told => return Err(Stop::failed(format!("found {order:?}, which is {told:?}"))),
    }
    let numbers: String = order.iter().map(|number| format!(" {number}")).collect();
    writeln!(io::stdout(), "order{numbers}")?;
    Ok(0)
}

fn no_history(history: &History) -> Stop {
    Stop::failed(format!("refused 40: {}", reason::refused(history)))
}

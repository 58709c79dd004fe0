//! Audits: the library's verdict and the second program's, on histories that pass, on every kind of
//! damage done to them, and on noise. Runs of the queue itself must pass.

use crate::audit_histories::{damage, noise, of_a_run, overlapping, Damage, History};
use crate::audit_histories::{FAILING, NO_REARRANGEMENT, OPEN, PASSING, REFUSED};
use crate::calls::called;
use crate::tally::Tally;
use crate::world::Export;
use reference::audit::{audit, Finished, Verdict};
use reference::dice::Dice;
use std::collections::BTreeMap;
use zeppolecape::raw;

/// The library's verdict; `rest` more words than whole calls are lent.
fn by_library(history: &History, rest: usize) -> Verdict {
    let words = |call: &Finished| {
        [call.task, call.kind, call.side, call.label, call.answer, call.start, call.end]
    };
    let mut lent: Vec<u64> = history.calls.iter().flat_map(words).collect();
    lent.extend(std::iter::repeat(7).take(rest));
    let (order, count) = (history.order.as_ptr(), history.order.len());
    // SAFETY: both pointers go with their lengths.
    let told = unsafe { called!(zc_audit_words(lent.as_ptr(), lent.len(), order, count)) };
    match (told.code, told.position) {
        (0, 0) => Verdict::Passes,
        (1, position) => Verdict::Fails(position.into()),
        (40, 0) => Verdict::Refused,
        other => panic!("the audit answered {other:?}"),
    }
}

/// Verdicts by what was done; the positions that were told.
#[derive(Default)]
struct Seen {
    verdicts: BTreeMap<(Damage, bool), u64>,
    positions: BTreeMap<u64, u64>,
}

impl Seen {
    fn compare(&mut self, tally: &mut Tally, history: &History, rest: usize) -> Verdict {
        let ours = by_library(history, rest);
        let theirs = audit(&history.calls, &history.order);
        let code = match theirs {
            Verdict::Passes => 0,
            Verdict::Fails(_) => 1,
            Verdict::Refused => 40,
        };
        tally.answered(Export::AuditWords, code);
        if let Verdict::Fails(position) = theirs {
            *self.positions.entry(position).or_default() += 1;
        }
        if ours != theirs {
            tally.differs(|| format!("audit: {ours:?}, expected {theirs:?}: {history:?}"));
        }
        theirs
    }
}

fn is_due(what: Damage, verdict: Verdict) -> bool {
    match verdict {
        _ if OPEN.contains(&what) => true,
        Verdict::Passes => PASSING.contains(&what),
        Verdict::Refused => REFUSED.contains(&what),
        Verdict::Fails(0) => NO_REARRANGEMENT.contains(&what),
        Verdict::Fails(_) => FAILING.contains(&what),
    }
}

pub fn audits(tally: &mut Tally, dice: &mut Dice, times: u32) {
    let mut seen = Seen::default();
    let all: Vec<Damage> =
        [&PASSING[..], &REFUSED[..], &NO_REARRANGEMENT[..], &FAILING[..], &OPEN[..]].concat();
    let mut as_said = true;
    for round in 0..times {
        let any = dice.between(2, 64) as usize;
        let count = *[0, 1, 2, 63, 64, 65, any, any].get(round as usize % 8).expect("of eight");
        let from_run = round % 3 == 0;
        let history = if from_run { of_a_run(dice, count) } else { overlapping(dice, count) };
        let whole = seen.compare(tally, &history, 0);
        as_said &= whole == if count > 64 { Verdict::Refused } else { Verdict::Passes };
        if !(2..=64).contains(&count) {
            continue;
        }
        for &what in &all {
            let mut damaged = history.clone();
            damage(dice, &mut damaged, what);
            let rest = if what == Damage::Rest { dice.between(1, 6) as usize } else { 0 };
            let verdict = seen.compare(tally, &damaged, rest);
            *seen.verdicts.entry((what, verdict == Verdict::Passes)).or_default() += 1;
            if !is_due(what, verdict) {
                as_said = false;
                println!("FAILED {what:?} gets {verdict:?}");
            }
        }
        for _ in 0..50 {
            seen.compare(tally, &noise(dice), 0);
        }
    }
    tally.check(as_said, "histories pass, are refused or are no rearrangement as they were made");
    for what in OPEN {
        for passes in [true, false] {
            let reached = seen.verdicts.contains_key(&(what, passes));
            tally.check(reached, &format!("{what:?} never led to passing: {passes}"));
        }
    }
    for position in 0..=64 {
        let told = seen.positions.contains_key(&position);
        tally.check(told, &format!("position {position} was never told"));
    }
    tally.check_reached(&[Export::AuditWords]);
}

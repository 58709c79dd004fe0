//! Do the tests fail when they should? Each fault of `tests/faults` is planted in a copy of its file, and
//! the test that it names must see it. By default a sample is tried, drawn by a seed that is printed.
//!
//!     cargo test -p library --test faults -- --include-ignored            all of them
//!     cargo test -p library --test faults -- --include-ignored NAME       one, by a part of its sentence
//!     FAULT_SEED=7 cargo test -p library --test faults                    the sample of a seed

mod list;
mod trial;

use list::Fault;
use reference::dice::Dice;
use std::collections::BTreeSet;
use std::process::ExitCode;
use std::sync::Arc;
use std::time::{SystemTime, UNIX_EPOCH};
use suite::Checks;
use trial::Workshop;

/// How many faults are tried by default: one of each test, and the rest from all.
const SAMPLE: usize = 40;

fn seed() -> u64 {
    let clock = || SystemTime::now().duration_since(UNIX_EPOCH).map_or(0, |time| time.as_secs());
    std::env::var("FAULT_SEED").ok().map_or_else(clock, |text| text.parse().expect("a number"))
}

/// Which faults are in the sample, by their places in the list.
fn sample(faults: &[Fault], seed: u64) -> BTreeSet<usize> {
    let mut dice = Dice::new(seed);
    let mut order: Vec<usize> = (0..faults.len()).collect();
    for at in (1..order.len()).rev() {
        order.swap(at, dice.between(0, at as u64) as usize);
    }
    let (mut chosen, mut tested) = (BTreeSet::new(), BTreeSet::new());
    for &at in &order {
        if faults[at].tests.iter().any(|test| !tested.contains(test)) {
            tested.extend(&faults[at].tests);
            chosen.insert(at);
        }
    }
    for at in order {
        if chosen.len() < SAMPLE {
            chosen.insert(at);
        }
    }
    chosen
}

fn main() -> ExitCode {
    let faults = Arc::new(list::all());
    let workshop = Arc::new(Workshop::set_up().expect("the calls by hand compile"));
    let seed = seed();
    let chosen = sample(&faults, seed);
    println!("seed {seed}: {} of {} planted faults are tried", chosen.len(), faults.len());
    let mut checks = Checks::of("faults");
    let mut pairs: BTreeSet<(String, String)> = BTreeSet::new();
    for (at, fault) in faults.iter().enumerate() {
        pairs.extend(fault.tests.iter().map(|test| (test.clone(), fault.file.clone())));
        let (faults, workshop) = (faults.clone(), workshop.clone());
        let trial = move || {
            let fault = &faults[at];
            let text = fault.planted()?;
            let seen: Result<Vec<String>, String> =
                fault.tests.iter().map(|test| workshop.sees(test, &fault.file, &text)).collect();
            seen.map(|seen| seen.join("\n"))
        };
        match chosen.contains(&at) {
            true => checks.tell(&fault.name, trial),
            false => checks.long(&fault.name, trial),
        }
    }
    for (test, file) in pairs {
        let workshop = workshop.clone();
        let name = format!("without a fault {test} passes on {file}");
        checks.tell(&name, move || workshop.passes(&test, &file));
    }
    checks.add("every fault has its text once in its file", move || {
        faults.iter().try_for_each(|fault| match fault.planted() {
            Ok(_) => Ok(()),
            Err(what) => Err(format!("  {}\n{what}", fault.name)),
        })
    });
    checks.main()
}

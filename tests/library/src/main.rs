//! The static library and the second program driven by the same calls, answers and all tables
//! compared after each. The parts:
//!
//! - calls: scenes that are accepted, every fault alone and in pairs, tables of any contents, histories
//!   from an opening
//! - sheet, join, serve, shelf, audit, schedules: order sheets, joinings, lists carried out, shelves,
//!   histories judged, every order for two tasks
//!
//! Of each call every answer and every refusal must be met; how often is told.
//!
//!     library-differential PART [SEED] [TIMES]
//!     library-differential answers                 every call, and what it can answer

mod audit;
mod audit_histories;
mod calls;
mod faults;
mod histories;
mod joins;
mod line;
mod noise;
mod ours;
mod plant;
mod records;
mod scene;
mod schedules;
mod serves;
mod sheets;
mod shelves;
mod sound;
mod tally;
mod theirs;
mod wild;
mod world;

use reference::dice::Dice;
use std::process::ExitCode;
use tally::Tally;

fn main() -> ExitCode {
    let mut words = std::env::args().skip(1);
    let part = words.next().unwrap_or_default();
    let mut number = || words.next().map_or(1, |text| text.parse().expect("a number"));
    let (seed, times) = (number(), number() as u32);
    let (mut tally, mut dice) = (Tally::default(), Dice::new(seed));
    match part.as_str() {
        "calls" => calls(&mut tally, &mut dice, times),
        "sheet" => sheets::sheets(&mut tally, &mut dice, 100_000 * times),
        "join" => joins::joins(&mut tally, &mut dice, 20_000 * times),
        "serve" => serves::serves(&mut tally, &mut dice, 20_000 * times),
        "shelf" => shelves::shelves(&mut tally, &mut dice, 20_000 * times),
        "audit" => audit::audits(&mut tally, &mut dice, 4_000 * times),
        "schedules" => schedules::schedules(&mut tally, &mut dice, 8_000 * times),
        "answers" => {
            tally::tell_answers();
            return ExitCode::SUCCESS;
        }
        _ => {
            eprintln!("usage: library-differential calls|sheet|join|serve|shelf|audit|schedules|answers [SEED] [TIMES]");
            return ExitCode::from(2);
        }
    }
    println!("seed {seed}: {} calls compared", tally.calls);
    println!("{} passed, {} failed", tally.passed, tally.failed);
    ExitCode::from(u8::from(tally.failed != 0 || tally.passed == 0))
}

fn calls(tally: &mut Tally, dice: &mut Dice, times: u32) {
    plant::accepted(tally, dice, 5_000 * times);
    plant::singles(tally, dice, 60 * times);
    plant::pairs(tally, dice, 3 * times);
    plant::failures(tally, dice, 60 * times);
    noise::noise(tally, dice, 200_000 * times);
    histories::histories(tally, dice, 150 * times, 10_000);
    tally.check_reached(&plant::EXPORTS);
}

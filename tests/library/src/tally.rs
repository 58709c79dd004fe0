//! What was compared and what was reached.

use crate::calls;
use crate::ours::by_library;
use crate::theirs::by_reference;
use crate::world::{difference, Call, Export, Told, World};
use std::collections::BTreeMap;

/// How many mismatches are printed, and after how many the test gives up.
const SHOWN: u64 = 10;
const ENOUGH: u64 = 1_000;

#[derive(Default)]
pub struct Tally {
    pub calls: u64,
    pub mismatches: u64,
    pub passed: u64,
    pub failed: u64,
    reached: BTreeMap<(Export, u32), u64>,
}

/// What each call can answer, by documents 01 and 02: 0, or 1 to 5 of a start and a step; and the
/// numbers of its refusals, of which each must be met.
const ANSWERS: [(Export, &[u32]); 19] = [
    (Export::Open, &[0, 10, 11, 12]),
    (Export::OpenPooled, &[0, 10, 11, 12]),
    (Export::Push, &[1, 12, 13, 14, 15, 30, 32, 33, 34, 41]),
    (Export::PushPooled, &[1, 12, 13, 14, 30, 33, 34, 41]),
    (Export::Pop, &[1, 12, 13, 14, 30, 33, 34]),
    (Export::Step, &[1, 2, 3, 4, 5, 12, 13, 31, 34]),
    (Export::Run, &[1, 2, 3, 4, 5, 12, 13, 31, 34]),
    (Export::StepRecord, &[1, 2, 3, 4, 5, 12, 31, 34]),
    (Export::Report, &[0, 12, 34]),
    (Export::Find, &[0, 12, 34, 45]),
    (Export::Waiting, &[0, 12, 34]),
    (Export::Sheet, &[0, 12, 34, 46]),
    (Export::SheetWords, &[0, 12, 34, 46]),
    (Export::Join, &[0, 12, 33, 34, 47, 48]),
    (Export::Serve, &[0, 10, 11, 12]),
    (Export::Save, &[0, 12, 34, 43]),
    (Export::Return, &[0, 12, 34, 43, 44]),
    (Export::AuditWords, &[0, 1, 40]),
    (Export::NextSchedule, &[0, 12, 34, 42]),
];

/// The table above, a line a call.
pub fn tell_answers() {
    for (export, codes) in ANSWERS {
        let codes: Vec<String> = codes.iter().map(u32::to_string).collect();
        println!("{} {}", export.name(), codes.join(" "));
    }
}

impl Tally {
    /// Carries out a call on both sides, compares answers and all tables, and gives the answer of
    /// the reference if they agree.
    pub fn compare(&mut self, ours: &mut World, theirs: &mut World, call: Call) -> Option<Told> {
        let told = by_library(ours, call);
        let expected = by_reference(theirs, call);
        self.answered(call.export(), expected.code());
        let complaint = match told == expected {
            false => Some(format!("answer {told:?}, expected {expected:?}")),
            true => difference(ours, theirs),
        };
        let Some(complaint) = complaint else { return Some(expected) };
        self.differs(|| format!("{call:?}: {complaint}"));
        None
    }

    /// A call was made, and this is the answer that is due.
    pub fn answered(&mut self, export: Export, code: u32) {
        self.calls += 1;
        *self.reached.entry((export, code)).or_default() += 1;
    }

    /// A call answered, or left its tables, otherwise. With calls of an object the first is enough.
    pub fn differs(&mut self, what: impl FnOnce() -> String) {
        self.mismatches += 1;
        if self.mismatches <= SHOWN {
            println!("MISMATCH {}", what());
        }
        if self.mismatches == ENOUGH || calls::are_an_object() {
            println!(
                "FAILED {} of {} calls differed, no more were made",
                self.mismatches, self.calls
            );
            println!("{} passed, {} failed", self.passed, self.failed + 1);
            std::process::exit(1);
        }
    }

    /// One check of this test.
    pub fn check(&mut self, holds: bool, what: &str) {
        match holds {
            true => self.passed += 1,
            false => {
                self.failed += 1;
                println!("FAILED {what}");
            }
        }
    }

    /// Of every call that was made, every answer and refusal must have been met, and no other.
    pub fn check_reached(&mut self, exports: &[Export]) {
        for export in exports {
            let met = |tally: &Tally, code| tally.reached.get(&(*export, code)).copied();
            let name = export.name();
            let wanted =
                ANSWERS.iter().find(|(of, _)| of == export).map_or(&[][..], |(_, codes)| codes);
            let told: Vec<String> = wanted
                .iter()
                .map(|&code| format!("{code}: {}", met(self, code).unwrap_or(0)))
                .collect();
            println!("{name} answered {}", told.join(", "));
            for &code in wanted {
                self.check(met(self, code).is_some(), &format!("{name} was never answered {code}"));
            }
            let strange =
                self.reached.keys().find(|(of, code)| of == export && !wanted.contains(code));
            let strange = strange.map(|(_, code)| *code);
            self.check(strange.is_none(), &format!("{name} was answered {strange:?}"));
        }
        self.check(self.mismatches == 0, &format!("{} calls differed", self.mismatches));
    }
}

//! What a fuzzer feeds with bytes, and a test with those that were kept. Each target carries out what the
//! bytes ask for twice, by the code under test and by the second program, and panics where they differ.
//!
//! - `tables`: one exported call on lent tables, sound or damaged, through the Rust crate's [`Tables`]
//!   (`calls`, `shelves`), the four calls of a split step (`split`), and audits (`audits`).
//! - `owned`: a list of calls on the crate's `Queue`, `SharedQueue` and `Shelves`.
//! - `runs`: a run file through the program `trace`.
//! - `histories`: a text through the program `verdict`.
//!
//! [`Tables`]: zeppolecape::Tables

mod audits;
mod bytes;
mod calls;
mod histories;
mod ours;
mod owned;
mod programs;
mod runs;
mod scene;
mod shelves;
mod split;

use reference::dice::Dice;

/// Panics where the code under test and the second program differ.
pub type Target = fn(&[u8]);

/// The targets by their names.
pub const TARGETS: [(&str, Target); 4] = [
    ("tables", calls::compare),
    ("owned", owned::compare),
    ("runs", runs::compare),
    ("histories", histories::compare),
];

/// The target with a name.
pub fn target(name: &str) -> Option<Target> {
    TARGETS.iter().find(|(known, _)| *known == name).map(|(_, compare)| *compare)
}

/// Which input it was, told where a comparison panics.
struct Told<'a>(&'a str, &'a [u8]);

impl Drop for Told<'_> {
    fn drop(&mut self) {
        if std::thread::panicking() {
            println!("{}: {:?}", self.0, self.1);
        }
    }
}

/// Carries out one input; `whence` is told with it if it fails.
pub fn carry_out(name: &str, whence: &str, input: &[u8]) {
    let _told = Told(whence, input);
    target(name).expect("a target")(input);
}

/// Inputs of random bytes: `ROUNDS` of them, from `SEED`.
pub fn random(name: &str, rounds: u64) {
    let number = |name: &str, otherwise| {
        std::env::var(name).map_or(otherwise, |text| text.parse().expect("a number"))
    };
    let seed = number("SEED", 1);
    let mut dice = Dice::new(seed);
    for _ in 0..number("ROUNDS", rounds) {
        let length = dice.between(0, 400);
        let input: Vec<u8> = (0..length).map(|_| dice.byte()).collect();
        carry_out(name, &format!("seed {seed}"), &input);
    }
}

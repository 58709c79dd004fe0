//! A run file through `trace`, and through the second program with each event judged.

use crate::programs::{said, Said};
use reference::check::Judge;
use reference::run::run;

pub fn compare(input: &[u8]) {
    let mut out = Vec::new();
    if let Err(failure) = run(input, &mut out, &mut Judge::default()) {
        panic!("the judge objects: {failure:?}");
    }
    let told = said("trace", input);
    if told.out != out {
        let (ours, theirs) = (String::from_utf8_lossy(&told.out), String::from_utf8_lossy(&out));
        let differ = ours.lines().zip(theirs.lines()).find(|(one, other)| one != other);
        panic!("trace prints {} bytes, expected {}; first {differ:?}", told.out.len(), out.len());
    }
    assert_eq!(told, Said { out, noise: String::new(), well: true });
}

//! The order sheet: document 02, #111 and #112. Chains are followed one by one, and copies are
//! looked at one by one, as the paper words them.

use crate::refusal::{control_sound, shared_long_enough, Refusal};
use crate::tables::Shared;
use crate::word::{Anchor, Link, Side, LPUSH};

pub const MOST_LISTED: usize = 32;
pub const MOST_RULES: usize = 128;
/// The words that the smaller printer lends.
pub const WORDS: usize = 32;

#[derive(Clone, Copy, Debug, PartialEq, Eq)]
pub enum Verdict {
    Kept,
    /// Two places in the list, from 1.
    Broken(usize, usize),
}

/// The two places that a rule's number names.
fn places(rule: u32) -> (usize, usize) {
    (rule as usize / 65_536, rule as usize % 65_536)
}

/// 46.
fn well_formed(listed: &[u32], rules: &[u32]) -> bool {
    let once = |label: &u32| listed.iter().filter(|other| *other == label).count() == 1;
    let inside = |place: usize| 1 <= place && place <= listed.len();
    listed.len() <= MOST_LISTED
        && rules.len() <= MOST_RULES
        && listed.iter().all(once)
        && rules.iter().all(|rule| inside(places(*rule).0) && inside(places(*rule).1))
}

/// The labels waiting from left to right, or nothing where a link is unsound.
fn labels_waiting(shared: &Shared) -> Option<Vec<u32>> {
    let anchor = Anchor::unpack(shared.control.anchor);
    let slots = shared.control.slots;
    let mut labels = Vec::new();
    if anchor.is_empty() {
        return Some(labels);
    }
    let (from, to) = match anchor.status {
        LPUSH => (Side::Left, Side::Right),
        _ => (Side::Right, Side::Left),
    };
    let mut slot = anchor.end(from);
    loop {
        if slot == 0 || labels.len() == slots as usize {
            return None;
        }
        labels.push(shared.labels[slot as usize]);
        if slot == anchor.end(to) {
            break;
        }
        let link = Link(shared.links(to)[slot as usize]);
        if !link.is_sound(slots) {
            return None;
        }
        slot = link.slot();
    }
    if from == Side::Right {
        labels.reverse();
    }
    Some(labels)
}

/// The places that a place is chained before, by following every rule from it.
pub fn chained_from(rules: &[u32], first: usize) -> Vec<usize> {
    let (mut found, mut open) = (Vec::new(), vec![first]);
    while let Some(at) = open.pop() {
        for (before, after) in rules.iter().map(|rule| places(*rule)) {
            if before == at && !found.contains(&after) {
                found.push(after);
                open.push(after);
            }
        }
    }
    found
}

/// Some copy of the second left of some copy of the first; of one label, any copy.
fn out_of_order(waiting: &[u32], first: u32, second: u32) -> bool {
    if first == second {
        return waiting.contains(&first);
    }
    (0..waiting.len()).any(|at| waiting[at] == second && waiting[at..].contains(&first))
}

fn judge(shared: &Shared, listed: &[u32], rules: &[u32], enough: bool) -> Result<Verdict, Refusal> {
    control_sound(shared.control)?;
    if !well_formed(listed, rules) {
        return Err(Refusal::Sheet);
    }
    shared_long_enough(shared, shared.control.slots, false)?;
    if !enough {
        return Err(Refusal::Short);
    }
    let waiting = labels_waiting(shared).ok_or(Refusal::Unsound)?;
    for first in 1..=listed.len() {
        let mut seconds = chained_from(rules, first);
        seconds.sort_unstable();
        for second in seconds {
            if out_of_order(&waiting, listed[first - 1], listed[second - 1]) {
                return Ok(Verdict::Broken(first, second));
            }
        }
    }
    Ok(Verdict::Kept)
}

pub fn sheet(shared: &Shared, listed: &[u32], rules: &[u32]) -> Result<Verdict, Refusal> {
    judge(shared, listed, rules, true)
}

/// The sheet on a smaller printer: the chained rules are left in the lent words.
pub fn sheet_words(
    shared: &Shared,
    listed: &[u32],
    rules: &[u32],
    words: &mut [u32],
) -> Result<Verdict, Refusal> {
    let verdict = judge(shared, listed, rules, words.len() >= WORDS)?;
    for (row, word) in words[..WORDS].iter_mut().enumerate() {
        *word = chained_from(rules, row + 1).iter().map(|place| 1 << (place - 1)).sum();
    }
    Ok(verdict)
}

//! A text through `verdict`, and read here from the program's own help and the messages that
//! `tests/suite/tests/histories.rs` has: a call a line, seven words, then the order.

use crate::programs::{said, Said};
use reference::audit::{audit, Finished, Verdict};

/// The text is longer than the program takes.
const MOST_BYTES: usize = 65_535;
const MISSING: &str = "the order is missing; it is the last line, `order` and the calls' numbers";
const SEVEN: &str = "a call has seven words: task, kind, side, label, answer, start, end";

pub fn compare(input: &[u8]) {
    let expected = match judged(input) {
        Ok(line) => {
            Said { out: format!("{line}\n").into_bytes(), noise: String::new(), well: true }
        }
        Err(why) => Said { out: Vec::new(), noise: format!("verdict: {why}\n"), well: true },
    };
    assert_eq!(said("verdict", input), expected);
}

/// The verdict's line, or why the text cannot be read.
fn judged(text: &[u8]) -> Result<String, String> {
    if text.len() > MOST_BYTES {
        return Err(format!("longer than {MOST_BYTES} bytes"));
    }
    let (calls, order) = read(text)?;
    Ok(match audit(&calls, &order) {
        Verdict::Passes => "passes".into(),
        Verdict::Fails(0) => "no rearrangement".into(),
        Verdict::Fails(position) => format!("fails at {position}"),
        Verdict::Refused => "refused 40".into(),
    })
}

/// The calls, and the order once it has begun.
fn read(text: &[u8]) -> Result<(Vec<Finished>, Vec<u64>), String> {
    let (mut calls, mut order) = (Vec::new(), None::<Vec<u64>>);
    for (number, line) in (1..).zip(text.split(|&byte| byte == b'\n')) {
        let line = line.split(|&byte| byte == b'#').next().unwrap_or_default();
        let words: Vec<&[u8]> =
            line.split(|byte| b" \t\r".contains(byte)).filter(|word| !word.is_empty()).collect();
        let at_line = |why: String| format!("line {number}: {why}");
        match (&mut order, words.as_slice()) {
            (Some(order), words) => order.extend(numbers(words).map_err(at_line)?),
            (None, []) => {}
            (None, [b"order", words @ ..]) => order = Some(numbers(words).map_err(at_line)?),
            (None, words) => calls.push(call(words).map_err(at_line)?),
        }
    }
    order.map(|order| (calls, order)).ok_or(MISSING.into())
}

/// The numbers of the order.
fn numbers(words: &[&[u8]]) -> Result<Vec<u64>, String> {
    words.iter().map(|word| named(word, &[], "a call's number is wanted")).collect()
}

/// A decimal number, or one of the names with theirs.
fn named(word: &[u8], names: &[(&str, u64)], wanted: &str) -> Result<u64, String> {
    if let Some((_, number)) = names.iter().find(|(name, _)| name.as_bytes() == word) {
        return Ok(*number);
    }
    if !word.iter().all(u8::is_ascii_digit) {
        return Err(wanted.into());
    }
    let digits = std::str::from_utf8(word).expect("digits");
    digits.parse().map_err(|_| format!("a number is above {}", u64::MAX))
}

/// Word by word; the first that cannot be read is told.
fn call(words: &[&[u8]]) -> Result<Finished, String> {
    let mut fields = [0; 7];
    let mut unlabelled = false;
    for (at, word) in words.iter().enumerate() {
        if at == 7 {
            return Err(SEVEN.into());
        }
        fields[at] = match at {
            0 => named(word, &[], "a task's number or `order` is wanted")?,
            1 => named(word, &[("push", 0), ("pop", 1)], "`push` or `pop` is wanted")?,
            2 => named(word, &[("left", 0), ("right", 1)], "`left` or `right` is wanted")?,
            3 => named(word, &[("-", 0)], "a label or `-` is wanted")?,
            4 => {
                let answers = [("pushed", 2), ("empty", 3), ("popped", 4)];
                named(word, &answers, "`pushed`, `empty` or `popped` is wanted")?
            }
            _ => named(word, &[], "an event's number is wanted")?,
        };
        unlabelled |= at == 3 && *word == b"-";
        if at == 4 && unlabelled && fields[4] != 3 {
            return Err("`-` stands for a label only with `empty`".into());
        }
    }
    if words.len() < 7 {
        return Err(SEVEN.into());
    }
    let [task, kind, side, label, answer, start, end] = fields;
    Ok(Finished { task, kind, side, label, answer, start, end })
}

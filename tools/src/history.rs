//! Reads a history of finished calls in the text form of the program `verdict`: a call a line, then the
//! claimed order of effects. Every call keeps its line.

use crate::say::{printable, Stop};
use std::fs::File;
use std::io::{self, Read};
use zeppolecape::Finished;

/// A history as it was written; whether it can be judged is another matter.
#[derive(Clone, Debug, Default, PartialEq, Eq)]
pub struct History {
    pub calls: Vec<Finished>,
    /// The line of each call, from 1.
    pub lines: Vec<u64>,
    /// The calls' numbers, from 1; nothing where the text has no order.
    pub order: Option<Vec<u64>>,
}

const SEVEN: &str = "a call has seven words: task, kind, side, label, answer, start, end";

impl History {
    /// The history in a file, or on standard input where none is named or it is `-`.
    pub fn open(path: Option<&str>) -> Result<History, Stop> {
        let mut bytes = Vec::new();
        let (name, read) = match path {
            None | Some("-") => {
                ("standard input".to_string(), io::stdin().lock().read_to_end(&mut bytes))
            }
            Some(path) => (
                printable(path.as_bytes()),
                File::open(path).and_then(|mut file| file.read_to_end(&mut bytes)),
            ),
        };
        read.map_err(|error| Stop::failed(format!("cannot read {name}: {error}")))?;
        History::of(&bytes).map_err(|(line, what)| Stop::failed(format!("{name}:{line}: {what}")))
    }

    /// The history that a text is, or the line that cannot be read and why.
    pub fn of(text: &[u8]) -> Result<History, (u64, String)> {
        let text = text.strip_prefix(b"\xef\xbb\xbf").unwrap_or(text);
        let mut history = History::default();
        for (number, line) in (1..).zip(text.split(|&byte| byte == b'\n')) {
            let line = line.split(|&byte| byte == b'#').next().unwrap_or_default();
            let blank = |byte: &u8| b" \t\r".contains(byte);
            let words: Vec<&[u8]> = line.split(blank).filter(|word| !word.is_empty()).collect();
            history.take(number, &words).map_err(|what| (number, what))?;
        }
        Ok(history)
    }

    fn take(&mut self, line: u64, words: &[&[u8]]) -> Result<(), String> {
        if let Some(order) = &mut self.order {
            return add_numbers(order, words);
        }
        match words {
            [] => Ok(()),
            [b"order", numbers @ ..] => add_numbers(self.order.insert(Vec::new()), numbers),
            _ => {
                self.calls.push(call(words)?);
                self.lines.push(line);
                Ok(())
            }
        }
    }
}

fn add_numbers(order: &mut Vec<u64>, words: &[&[u8]]) -> Result<(), String> {
    for word in words {
        order.push(number(word, "a call's number is wanted")?);
    }
    Ok(())
}

/// The seven words of a call, told by the first that cannot be read. Kind, side and answer may be numbers.
fn call(words: &[&[u8]]) -> Result<Finished, String> {
    let word = |at: usize| words.get(at).copied().ok_or_else(|| SEVEN.to_string());
    let named = |at: usize, names: &[(&str, u64)], wanted: &str| {
        let word = word(at)?;
        let meant = names.iter().find(|(name, _)| name.as_bytes() == word);
        meant.map_or_else(|| number(word, wanted), |&(_, value)| Ok(value))
    };
    let answers = [("pushed", 2), ("empty", 3), ("popped", 4)];
    let event = "an event's number is wanted";
    let task = number(word(0)?, "a task's number or `order` is wanted")?;
    let kind = named(1, &[("push", 0), ("pop", 1)], "`push` or `pop` is wanted")?;
    let side = named(2, &[("left", 0), ("right", 1)], "`left` or `right` is wanted")?;
    let label = named(3, &[("-", 0)], "a label or `-` is wanted")?;
    let answer = named(4, &answers, "`pushed`, `empty` or `popped` is wanted")?;
    if word(3)? == b"-" && answer != 3 {
        return Err("`-` stands for a label only with `empty`".to_string());
    }
    let (start, end) = (named(5, &[], event)?, named(6, &[], event)?);
    match words.len() {
        7 => Ok(Finished { task, kind, side, label, answer, start, end }),
        _ => Err(SEVEN.to_string()),
    }
}

fn number(word: &[u8], wanted: &str) -> Result<u64, String> {
    if word.is_empty() || !word.iter().all(u8::is_ascii_digit) {
        return Err(format!("{wanted}, and not {}", printable(word)));
    }
    let parsed = std::str::from_utf8(word).ok().and_then(|digits| digits.parse().ok());
    parsed.ok_or_else(|| format!("a number is above {}", u64::MAX))
}

#[cfg(test)]
mod tests {
    use super::*;

    #[test]
    fn lines_and_order() {
        let text = b"\xef\xbb\xbf# a comment\r\n\n0 push right 700 pushed 1 3\r\n1 pop left - empty 4 5 # none\norder 1\n 2\n";
        let history = History::of(text).unwrap();
        assert_eq!(history.lines, [3, 4]);
        assert_eq!(history.order, Some(vec![1, 2]));
        let [task, kind, side, label, answer, start, end] = [0, 0, 1, 700, 2, 1, 3];
        assert_eq!(history.calls[0], Finished { task, kind, side, label, answer, start, end });
    }

    #[test]
    fn what_cannot_be_read() {
        let wrong = [
            ("0 push right 700 pushed 1", 1, SEVEN),
            ("\n0 push right 700 pushed 1 2 3", 2, SEVEN),
            ("0 pop left - popped 1 2", 1, "`-` stands for a label only with `empty`"),
            ("order 1 two", 1, "a call's number is wanted, and not two"),
            ("0 \0push left 1 pushed 1 2", 1, "`push` or `pop` is wanted, and not \\000push"),
            (
                "0 pop left 99999999999999999999 empty 1 2",
                1,
                "a number is above 18446744073709551615",
            ),
        ];
        for (text, line, what) in wrong {
            assert_eq!(History::of(text.as_bytes()), Err((line, what.to_string())), "{text:?}");
        }
    }
}

//! An order sheet as a text: labels, their names, and rules on them, one a line.

use crate::say::{printable, Stop};
use std::collections::{HashMap, VecDeque};
use std::fs::File;
use std::io::{self, Read};

/// The label at one place of the list prints before the one at another; places count from 1.
#[derive(Clone, Copy, Debug, PartialEq, Eq)]
pub struct Rule {
    pub first: usize,
    pub second: usize,
    pub line: u64,
}

#[derive(Clone, Debug, Default, PartialEq, Eq)]
pub struct Paper {
    /// The labels listed, in the order in which they first stand.
    pub labels: Vec<u32>,
    pub rules: Vec<Rule>,
    /// The place of each label by its name.
    names: HashMap<String, usize>,
}

impl Paper {
    pub fn open(path: &str) -> Result<Paper, Stop> {
        let mut text = String::new();
        let read = match path {
            "-" => io::stdin().lock().read_to_string(&mut text),
            _ => File::open(path).and_then(|mut file| file.read_to_string(&mut text)),
        };
        let name = match path {
            "-" => "standard input".to_string(),
            _ => printable(path.as_bytes()),
        };
        read.map_err(|error| Stop::failed(format!("cannot read {name}: {error}")))?;
        Paper::of(&text).map_err(|(line, what)| Stop::failed(format!("{name}:{line}: {what}")))
    }

    /// The sheet that a text is, or the line that cannot be read and why.
    pub fn of(text: &str) -> Result<Paper, (u64, String)> {
        let text = text.strip_prefix('\u{feff}').unwrap_or(text);
        let mut paper = Paper::default();
        for (line, words) in (1..).zip(text.lines()) {
            let words = words.split('#').next().unwrap_or_default();
            let words: Vec<&str> = words.split_ascii_whitespace().collect();
            paper.take(line, &words).map_err(|what| (line, what))?;
        }
        Ok(paper)
    }

    fn take(&mut self, line: u64, words: &[&str]) -> Result<(), String> {
        match *words {
            [] => Ok(()),
            ["label", label] => self.listed(label).map(drop),
            ["label", label, name] => {
                let place = self.listed(label)?;
                self.call(name, place)
            }
            [first, "before", second] => {
                let (first, second) = (self.place(first)?, self.place(second)?);
                self.rules.push(Rule { first, second, line });
                Ok(())
            }
            _ => Err("`label NUMBER [NAME]` or `LABEL before LABEL` is wanted".to_string()),
        }
    }

    /// The place of a label, which is listed if it is not yet.
    fn listed(&mut self, word: &str) -> Result<usize, String> {
        let digits = word.bytes().all(|byte| byte.is_ascii_digit());
        let label = word.parse().ok().filter(|_| digits);
        let label = label.ok_or_else(|| format!("not a label of 32 bits: {}", shown(word)))?;
        if let Some(at) = self.labels.iter().position(|&listed| listed == label) {
            return Ok(at + 1);
        }
        self.labels.push(label);
        Ok(self.labels.len())
    }

    /// The place of a label, named or by its number.
    fn place(&mut self, word: &str) -> Result<usize, String> {
        match self.names.get(word) {
            Some(&place) => Ok(place),
            None if word.starts_with(|letter: char| letter.is_ascii_digit()) => self.listed(word),
            None => Err(format!("no label is called {}", shown(word))),
        }
    }

    fn call(&mut self, name: &str, place: usize) -> Result<(), String> {
        if name.starts_with(|letter: char| letter.is_ascii_digit()) || name == "before" {
            return Err(format!("not a name: {}", shown(name)));
        }
        match self.names.insert(name.to_string(), place) {
            Some(other) if other != place => Err(format!("two labels are called {}", shown(name))),
            _ => Ok(()),
        }
    }

    /// The label at a place: its name with its number, or the number alone.
    pub fn name(&self, place: usize) -> String {
        let label = self.labels[place - 1];
        let mut names: Vec<&String> =
            self.names.iter().filter(|named| *named.1 == place).map(|named| named.0).collect();
        names.sort();
        match names.first() {
            Some(name) => format!("{} ({label})", shown(name)),
            None => label.to_string(),
        }
    }

    /// The rules as the library takes them.
    pub fn words(&self) -> Vec<u32> {
        let word = |rule: &Rule| zeppolecape::rule(rule.first as u64, rule.second as u64);
        self.rules.iter().map(word).collect()
    }

    /// The fewest rules that lead from one place to the other, one or more; none where it is not chained.
    pub fn chain(&self, first: usize, second: usize) -> Vec<Rule> {
        let mut before: HashMap<usize, Rule> = HashMap::new();
        let mut open = VecDeque::from([first]);
        while let Some(place) = open.pop_front() {
            for rule in self.rules.iter().filter(|rule| rule.first == place) {
                if !before.contains_key(&rule.second) {
                    before.insert(rule.second, *rule);
                    open.push_back(rule.second);
                }
            }
        }
        let mut chain = Vec::new();
        let mut place = second;
        while let Some(&rule) = before.get(&place) {
            chain.push(rule);
            place = rule.first;
            if place == first {
                break;
            }
        }
        chain.reverse();
        chain
    }
}

fn shown(word: &str) -> String {
    printable(word.as_bytes())
}

#[cfg(test)]
mod tests {
    use super::*;

    #[test]
    fn labels_names_and_rules() {
        let paper =
            Paper::of("label 700 carton\r\nlabel 9\n\ncarton before 702 # a rule\n702 before 9\n")
                .unwrap();
        assert_eq!(paper.labels, [700, 9, 702]);
        assert_eq!(paper.words(), [1 << 16 | 3, 3 << 16 | 2]);
        let lines: Vec<u64> = paper.chain(1, 2).iter().map(|rule| rule.line).collect();
        assert_eq!(lines, [4, 5]);
        assert_eq!(paper.chain(2, 1), []);
        assert_eq!([1, 2].map(|place| paper.name(place)), ["carton (700)", "9"]);
    }

    #[test]
    fn a_chain_to_itself() {
        let paper = Paper::of("1 before 2\n2 before 1\n").unwrap();
        let lines: Vec<u64> = paper.chain(1, 1).iter().map(|rule| rule.line).collect();
        assert_eq!(lines, [1, 2]);
    }

    #[test]
    fn what_cannot_be_read() {
        let wrong = [
            ("\ncarton before 7", 2, "no label is called carton"),
            ("label x", 1, "not a label of 32 bits: x"),
            ("label 4294967296", 1, "not a label of 32 bits: 4294967296"),
            ("label 1 a\nlabel 2 a", 2, "two labels are called a"),
            ("1 after 2", 1, "`label NUMBER [NAME]` or `LABEL before LABEL` is wanted"),
        ];
        for (text, line, what) in wrong {
            assert_eq!(Paper::of(text), Err((line, what.to_string())), "{text:?}");
        }
    }
}

//! The faults of `tests/faults/*.txt`, and their planting.
//!
//! A `file:` and a `test:` line hold for all faults below them, until the next. A fault is a sentence
//! after `# ` and one or more edits: `old:` lines, a text that stands once in the file, and `new:`
//! lines, what takes its place. Before them `in: NAME` says that it stands once in the function of
//! that name. `test:` names the tests of which each must see it, `also:` more of them for one fault.

use std::fs::{read_dir, read_to_string};
use suite::root;

#[derive(Default)]
struct Edit {
    scope: Option<String>,
    old: Vec<String>,
    new: Vec<String>,
}

pub struct Fault {
    /// The list's name and the sentence.
    pub name: String,
    pub file: String,
    pub tests: Vec<String>,
    edits: Vec<Edit>,
}

pub fn all() -> Vec<Fault> {
    let folder = root().join("tests/faults");
    let mut lists: Vec<_> = read_dir(&folder)
        .expect("tests/faults")
        .map(|entry| entry.expect("an entry").path())
        .filter(|path| path.extension().is_some_and(|end| end == "txt"))
        .collect();
    lists.sort();
    let mut faults = Vec::new();
    for list in lists {
        let name = list.file_stem().unwrap_or_default().to_string_lossy().into_owned();
        read(&name, &read_to_string(&list).expect("a list of faults"), &mut faults);
    }
    faults
}

fn read(list: &str, text: &str, faults: &mut Vec<Fault>) {
    let (mut file, mut tests) = (String::new(), Vec::new());
    for (number, line) in text.lines().enumerate() {
        let wrong = |what: &str| -> ! { panic!("tests/faults/{list}.txt:{}: {what}", number + 1) };
        let (word, rest) = line.split_once(' ').unwrap_or((line, ""));
        if let "" | "file:" | "test:" | "#" = word {
            match word {
                "file:" => file = rest.to_string(),
                "test:" => tests = rest.split(' ').map(str::to_string).collect(),
                "#" if file.is_empty() || tests.is_empty() => wrong("no file or no test"),
                "#" => faults.push(Fault {
                    name: format!("{list}: {rest}"),
                    file: file.clone(),
                    tests: tests.clone(),
                    edits: Vec::new(),
                }),
                _ => {}
            }
            continue;
        }
        let Some(fault) = faults.last_mut() else { wrong("a line before the first fault") };
        let begins = fault.edits.last().is_none_or(|edit| !edit.new.is_empty());
        if (word == "in:" || word == "old:") && begins {
            fault.edits.push(Edit::default());
        }
        match (word, fault.edits.last_mut()) {
            ("also:", _) => fault.tests.extend(rest.split(' ').map(str::to_string)),
            ("in:", Some(edit)) => edit.scope = Some(rest.to_string()),
            ("old:", Some(edit)) => edit.old.push(rest.to_string()),
            ("new:", Some(edit)) => edit.new.push(rest.to_string()),
            _ => wrong("neither #, file:, test:, also:, in:, old: nor new:"),
        }
    }
}

/// Where a function's definition stands: from the line, not indented, that has its name, before a body in
/// braces of their own lines.
fn body(text: &str, name: &str) -> Option<(usize, usize)> {
    let mut from = 0;
    let named = format!("{name}(");
    while let Some(at) = text[from..].find(&named).map(|at| from + at) {
        let begin = text[..at].rfind('\n').map_or(0, |at| at + 1);
        let after = &text[begin..];
        let ends = |mark: &str| after.find(mark).map_or(usize::MAX, |at| begin + at);
        let (opens, closes, declared) = (ends("\n{"), ends("\n}"), ends(";"));
        if !text[begin..at].starts_with([' ', '\t', '#']) && opens < closes && opens < declared {
            return Some((begin, closes + 2));
        }
        from = at + named.len();
    }
    None
}

impl Fault {
    /// The file with the fault in it, or why that does not go.
    pub fn planted(&self) -> Result<String, String> {
        let mut text =
            read_to_string(root().join(&self.file)).map_err(|error| error.to_string())?;
        if self.edits.is_empty() {
            return Err(format!("  no edit: {}", self.name));
        }
        for Edit { scope, old, new } in &self.edits {
            let (old, new) = (old.join("\n"), new.join("\n"));
            let (begin, end) = match scope {
                None => (0, text.len()),
                Some(name) => {
                    body(&text, name).ok_or(format!("  no function {name} in {}", self.file))?
                }
            };
            let found: Vec<usize> =
                text[begin..end].match_indices(&old).map(|(at, _)| at).collect();
            let &[at] = &found[..] else {
                let (times, file) = (found.len(), &self.file);
                return Err(format!("  this stands {times} times, not once, in {file}:\n  {old}"));
            };
            if old.is_empty() || old == new {
                return Err(format!("  an edit that changes nothing: {}", self.name));
            }
            text.replace_range(begin + at..begin + at + old.len(), &new);
        }
        Ok(text)
    }
}

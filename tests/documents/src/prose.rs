//! A document taken apart: what stands in backticks, and its sentences.

/// A document with its fenced and indented code left out, line by line.
pub fn without_code(text: &str) -> String {
    let mut fenced = false;
    let mut kept = String::new();
    for line in text.lines() {
        let fence = line.trim_start().starts_with("```");
        if !fence && !fenced && !line.starts_with("    ") {
            kept.push_str(line);
        }
        fenced ^= fence;
        kept.push('\n');
    }
    kept
}

/// The lines of fenced and indented code, each with its number.
pub fn code_lines(text: &str) -> Vec<(usize, &str)> {
    let mut fenced = false;
    let mut found = Vec::new();
    for (at, line) in text.lines().enumerate() {
        let fence = line.trim_start().starts_with("```");
        if !fence && (fenced || line.starts_with("    ")) {
            found.push((at + 1, line));
        }
        fenced ^= fence;
    }
    found
}

/// What stands in backticks outside code, with the number of its line.
pub fn spans(text: &str) -> Vec<(usize, String)> {
    let mut found = Vec::new();
    for (number, paragraph) in paragraphs(text, |line| line.trim().is_empty()) {
        let parts: Vec<&str> = paragraph.split('`').collect();
        let inside = parts.iter().skip(1).step_by(2).take(parts.len() / 2);
        found.extend(inside.map(|span| (number, span.trim().to_string())));
    }
    found
}

/// The sentences of a document, with the number of the line where their paragraph begins. Tables and headings have none.
pub fn sentences(text: &str) -> Vec<(usize, String)> {
    let mut found = Vec::new();
    let apart =
        |line: &str| line.trim().is_empty() || line.starts_with('|') || line.starts_with('#');
    for (number, paragraph) in paragraphs(text, apart) {
        let letters: Vec<char> = paragraph.chars().collect();
        let mut begun = 0;
        for at in 0..letters.len() {
            if ends(&letters, at) {
                found.push((number, letters[begun..=at].iter().collect()));
                begun = at + 1;
            }
        }
        if begun < letters.len() {
            found.push((number, letters[begun..].iter().collect()));
        }
    }
    found
}

/// A full stop and its like with a space behind it and no small letter after that; not one of two dots.
fn ends(letters: &[char], at: usize) -> bool {
    let next = letters.get(at + 1).copied().unwrap_or(' ');
    let after = letters.get(at + 2).copied().unwrap_or(' ');
    let dots = letters[at] == '.' && at > 0 && letters[at - 1] == '.';
    matches!(letters[at], '.' | '?' | '!')
        && !dots
        && (next == ' ' || "*\")".contains(next))
        && !after.is_lowercase()
}

/// Lines that belong together, joined; an item of a list is by itself.
fn paragraphs(text: &str, apart: impl Fn(&str) -> bool) -> Vec<(usize, String)> {
    let mut found: Vec<(usize, String)> = Vec::new();
    let mut open = false;
    for (at, line) in without_code(text).lines().enumerate() {
        if apart(line) {
            open = false;
            continue;
        }
        if open && !is_item(line) {
            let (_, last) = found.last_mut().expect("an open paragraph");
            last.push(' ');
            last.push_str(line.trim());
        } else {
            found.push((at + 1, line.trim().to_string()));
        }
        open = true;
    }
    found
}

fn is_item(line: &str) -> bool {
    let line = line.trim_start();
    let number = line.trim_start_matches(|letter: char| letter.is_ascii_digit());
    line.starts_with("- ")
        || line.starts_with('|')
        || (number.len() < line.len() && number.starts_with(". "))
}

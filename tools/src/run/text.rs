//! One line of a run in its text form as the bytes of a run file; what is wrong with it is told in the
//! words of `tools/runfile`.

use crate::say::printable;

/// The bytes that a line stands for; none for an empty line or a comment.
pub fn bytes_of(line: &[u8]) -> Result<Vec<u8>, String> {
    let line = line.strip_suffix(b"\n").unwrap_or(line);
    let line = line.strip_suffix(b"\r").unwrap_or(line);
    let line = line.split(|&byte| byte == b'#').next().unwrap_or_default();
    let words: Vec<&[u8]> =
        line.split(|byte| b" \t".contains(byte)).filter(|word| !word.is_empty()).collect();
    let Some((&operation, words)) = words.split_first() else { return Ok(Vec::new()) };
    match operation {
        b"open" => open(words),
        b"push" => push(words),
        b"pop" => pop(words),
        b"step" => steps(words),
        b"raw" => raw(words),
        _ => Err(format!("unknown operation: {}", printable(operation))),
    }
}

fn open(words: &[&[u8]]) -> Result<Vec<u8>, String> {
    if !(3..=4).contains(&words.len()) {
        return Err(format!("open takes 3 or 4 words, found {}", words.len()));
    }
    if words.len() == 4 && words[3] != b"pooled" {
        return Err(format!("not pooled: {}", printable(words[3])));
    }
    let mut content = vec![number("tasks", words[0], 255)? as u8];
    content.extend_from_slice(&(number("slots", words[1], 65_535)? as u16).to_be_bytes());
    content.extend_from_slice(&number("first tag", words[2], u32::MAX)?.to_be_bytes());
    Ok(field(if words.len() == 4 { 5 } else { 1 }, &content))
}

fn push(words: &[&[u8]]) -> Result<Vec<u8>, String> {
    if !(3..=4).contains(&words.len()) {
        return Err(format!("push takes 3 or 4 words, found {}", words.len()));
    }
    let mut content = vec![number("task", words[0], 255)? as u8, side(words[1])?];
    if words.len() == 4 {
        content.extend_from_slice(&(number("slot", words[2], 65_535)? as u16).to_be_bytes());
    }
    let label = number("label", words[words.len() - 1], u32::MAX)?;
    content.extend_from_slice(&label.to_be_bytes());
    Ok(field(if words.len() == 4 { 2 } else { 6 }, &content))
}

fn pop(words: &[&[u8]]) -> Result<Vec<u8>, String> {
    match words {
        [task, end] => Ok(field(3, &[number("task", task, 255)? as u8, side(end)?])),
        _ => Err(format!("pop takes 2 words, found {}", words.len())),
    }
}

/// Fields of at most 4096 steps each.
fn steps(words: &[&[u8]]) -> Result<Vec<u8>, String> {
    let mut tasks = Vec::new();
    for word in words {
        let (task, times) = turns(word)?;
        tasks.resize(tasks.len() + times, task);
    }
    match tasks.is_empty() {
        true => Ok(field(4, &[])),
        false => Ok(tasks.chunks(4_096).flat_map(|some| field(4, some)).collect()),
    }
}

/// TASK or TASK*COUNT.
fn turns(word: &[u8]) -> Result<(u8, usize), String> {
    let parts: Vec<&[u8]> = word.split(|&byte| byte == b'*').collect();
    match parts[..] {
        [task] => Ok((number("task", task, 255)? as u8, 1)),
        [[], _] => Err(format!("task is missing before *: {}", printable(word))),
        [_, []] => Err(format!("count is missing after *: {}", printable(word))),
        [task, count] => {
            let task = number("task", task, 255)? as u8;
            Ok((task, number("count", count, 1_000_000)? as usize))
        }
        _ => Err(format!("not TASK or TASK*COUNT: {}", printable(word))),
    }
}

fn raw(words: &[&[u8]]) -> Result<Vec<u8>, String> {
    if words.is_empty() {
        return Err("raw takes hexadecimal bytes".to_string());
    }
    let mut bytes = Vec::new();
    for word in words {
        if word.len() % 2 != 0 || !word.iter().all(u8::is_ascii_hexdigit) {
            return Err(format!("not whole hexadecimal bytes: {}", printable(word)));
        }
        let digit = |byte: u8| (byte as char).to_digit(16).unwrap_or_default() as u8;
        bytes.extend(word.chunks(2).map(|pair| digit(pair[0]) << 4 | digit(pair[1])));
    }
    Ok(bytes)
}

fn field(tag: u8, content: &[u8]) -> Vec<u8> {
    let mut bytes = vec![tag];
    bytes.extend_from_slice(&(content.len() as u16).to_be_bytes());
    bytes.extend_from_slice(content);
    bytes
}

/// A number of 0 to `most`, or an error that names what was read.
fn number(what: &str, word: &[u8], most: u32) -> Result<u32, String> {
    if word.is_empty() || !word.iter().all(u8::is_ascii_digit) {
        return Err(format!("{what} is not a number: {}", printable(word)));
    }
    let value = word
        .iter()
        .fold(0u64, |sum, &digit| sum.saturating_mul(10).saturating_add(u64::from(digit - b'0')));
    match u32::try_from(value) {
        Ok(value) if value <= most => Ok(value),
        _ => Err(format!("{what} is above {most}: {}", printable(word))),
    }
}

fn side(word: &[u8]) -> Result<u8, String> {
    match word {
        b"left" => Ok(0),
        b"right" => Ok(1),
        _ if word.iter().all(u8::is_ascii_digit) => Ok(number("side", word, 255)? as u8),
        _ => Err(format!("side is not left, right or a number: {}", printable(word))),
    }
}

//! Values as JSON, for a script in a page: no `<`, so that nothing in it ends the script.

use std::fmt::Write;

pub fn text(value: &str) -> String {
    let mut out = String::from("\"");
    for letter in value.chars() {
        match letter {
            '"' | '\\' => out.extend(['\\', letter]),
            '<' | '\u{2028}' | '\u{2029}' | '\0'..='\x1f' => {
                write!(out, "\\u{:04x}", letter as u32).expect("a text takes any letter")
            }
            _ => out.push(letter),
        }
    }
    out.push('"');
    out
}

pub fn array(values: impl IntoIterator<Item = String>) -> String {
    format!("[{}]", values.into_iter().collect::<Vec<_>>().join(","))
}

pub fn numbers(values: &[u64]) -> String {
    array(values.iter().map(u64::to_string))
}

pub fn object(fields: &[(&str, String)]) -> String {
    let fields = fields.iter().map(|(name, value)| format!("{}:{value}", text(name)));
    format!("{{{}}}", fields.collect::<Vec<_>>().join(",\n"))
}

pub fn optional(value: Option<u64>) -> String {
    value.map_or("null".into(), |value| value.to_string())
}

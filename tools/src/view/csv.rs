//! Rows for a spreadsheet: numbers bare, all else in quotes. The queue stands in brackets, since a
//! spreadsheet would take `1 - 2` for a date, and Anchor is the formula of a text, which keeps its zeros.

use super::options::Options;
use super::row::Row;
use super::Sheet;
use crate::play::{Asked, Play, Reply};
use crate::queue::Library;
use crate::words::{self, refused, Names};
use std::io::{self, Write};

pub struct Csv {
    names: Names,
    headed: bool,
}

impl Csv {
    pub fn of(options: &Options) -> Csv {
        Csv { names: options.names.clone(), headed: false }
    }

    fn heading(&self, tasks: u8) -> String {
        let fixed = ["event", "task", "call", "answer", "tag", "status", "left end", "right end"];
        let mut fields: Vec<String> = fixed.map(quoted).to_vec();
        fields.extend((0..tasks).map(|task| quoted(&self.names.the_task(task))));
        fields.extend(["queue", "effect", "retries", "what it did", "anchor"].map(quoted));
        fields.join(",")
    }
}

/// A field of text; one that a spreadsheet would take for a formula begins with an apostrophe.
fn quoted(text: &str) -> String {
    let guard = if text.starts_with(['=', '+', '@']) { "'" } else { "" };
    format!("\"{guard}{}\"", text.replace('"', "\"\""))
}

fn call(asked: Asked) -> &'static str {
    match asked {
        Asked::Open(_) => "open",
        Asked::Push { .. } => "push",
        Asked::Pop { .. } => "pop",
        Asked::Step => "step",
        Asked::File => "file",
    }
}

fn answer(reply: Reply) -> String {
    match reply {
        Reply::Done => "ok".into(),
        Reply::Moved(answer) => words::answer(answer),
        Reply::Refused(refusal) => refused(refusal),
        Reply::Malformed => words::MALFORMED.into(),
    }
}

impl Sheet for Csv {
    fn row(&mut self, row: &Row<'_>, out: &mut dyn Write) -> io::Result<()> {
        if !self.headed {
            self.headed = true;
            writeln!(out, "{}", self.heading(row.records.len() as u8))?;
        }
        let (touch, anchor) = (row.touch, row.anchor);
        let mut fields = vec![
            touch.event.to_string(),
            quoted(&row.task),
            quoted(call(touch.asked)),
            quoted(&answer(touch.reply)),
            anchor.tag.to_string(),
            quoted(words::status(anchor.status)),
            anchor.left.to_string(),
            anchor.right.to_string(),
        ];
        fields.extend(row.records.iter().map(|record| quoted(&words::standing(record))));
        let retries: u64 = row.records.iter().map(|record| record.retries).sum();
        fields.push(quoted(&format!("[{}]", row.queue)));
        fields.push(quoted(if touch.effect { "effect" } else { "" }));
        fields.push(retries.to_string());
        fields.push(quoted(&row.what));
        fields.push(format!("\"=\"\"{:016x}\"\"\"", touch.after.0.anchor));
        writeln!(out, "{}", fields.join(","))
    }

    fn end(&mut self, _: &mut Play<Library>, _: &mut dyn Write) -> io::Result<()> {
        Ok(())
    }
}

//! Rows in a terminal, as wide as it is.

use super::options::Options;
use super::row::Row;
use super::text::{cut, wrapped};
use super::{sums, Sheet};
use crate::play::{Play, Reply};
use crate::queue::Library;
use crate::words::{self, Names};
use std::io::{self, Write};
use zeppolecape::Record;

/// How each task's standing finds room.
#[derive(Clone, Copy, PartialEq, Eq)]
enum Cells {
    /// A column a task: `push L at 5`.
    Full,
    /// A column a task: `+L5`.
    Short,
    /// On a line of their own, busy tasks only.
    Below,
}

/// The widths of the columns; two spaces stand between them.
#[derive(Clone, Copy)]
struct Layout {
    event: usize,
    task: usize,
    what: usize,
    cell: usize,
    queue: usize,
    cells: Cells,
}

const EVENT: usize = 5;
const FULL_CELL: usize = 12; // push L at 10
const SHORT_CELL: usize = 4; // -R11
/// The least that the columns of words need to be read.
const LEAST_WORDS: usize = 58;
const LEAST_SHORT_WORDS: usize = 40;
const MOST_WHAT: usize = 48;

impl Layout {
    fn of(width: usize, tasks: usize, task: usize) -> Layout {
        let fixed = EVENT + 2 + task + 2 + 2; // with the effect's mark
        let left = |cell: usize| width.saturating_sub(fixed + tasks * (cell + 2));
        let (cells, cell, left) = match () {
            _ if left(FULL_CELL) >= LEAST_WORDS => (Cells::Full, FULL_CELL, left(FULL_CELL)),
            _ if left(SHORT_CELL) >= LEAST_SHORT_WORDS => {
                (Cells::Short, SHORT_CELL, left(SHORT_CELL))
            }
            _ => (Cells::Below, 0, width.saturating_sub(fixed)),
        };
        let what = (left * 2 / 3).min(MOST_WHAT);
        let queue = left.saturating_sub(what + 2).max(6);
        Layout { event: EVENT, task, what, cell, queue, cells }
    }
}

pub struct Table {
    names: Names,
    width: usize,
    colours: bool,
    layout: Option<Layout>,
}

/// The colours of a terminal, none where it is none.
const BOLD: &str = "1";
const DIM: &str = "2";
const RED: &str = "31";
const GREEN: &str = "1;32";
const YELLOW: &str = "33";

impl Table {
    pub fn of(options: &Options) -> Table {
        let Options { names, width, colours, .. } = options.clone();
        Table { names, width, colours, layout: None }
    }

    fn paint(&self, text: &str, colour: &str) -> String {
        match self.colours && !text.trim().is_empty() {
            true => format!("\x1b[{colour}m{text}\x1b[0m"),
            false => text.to_string(),
        }
    }

    /// The layout, made with the first row, with the heading written above it.
    fn layout(&mut self, row: &Row<'_>, out: &mut dyn Write) -> io::Result<Layout> {
        if let Some(layout) = self.layout {
            return Ok(layout);
        }
        let tasks = 0..row.records.len() as u8;
        let longest = tasks.clone().map(|task| self.names.task(task).len()).max().unwrap_or(0);
        let layout = Layout::of(self.width, row.records.len(), longest.clamp(4, 12));
        self.layout = Some(layout);
        self.legend(layout, row.slots.is_some(), out)?;
        let mut heading = vec![
            (cut("event", layout.event), layout.event),
            ("task".to_string(), layout.task),
            (cut("* what it did", layout.what + 2), layout.what + 2),
        ];
        if layout.cells != Cells::Below {
            let name = |task| (cut(&self.names.task(task), layout.cell), layout.cell);
            heading.extend(tasks.map(name));
        }
        let waiting = ["waiting, left to right", "waiting"];
        let waiting = waiting.into_iter().find(|text| text.len() <= layout.queue);
        heading.push((waiting.unwrap_or("queue").to_string(), layout.queue));
        let line: Vec<String> =
            heading.iter().map(|(text, width)| format!("{text:<width$}")).collect();
        writeln!(out, "{}", self.paint(line.join("  ").trim_end(), BOLD))?;
        Ok(layout)
    }

    /// How to read what is written short.
    fn legend(&self, layout: Layout, slots: bool, out: &mut dyn Write) -> io::Result<()> {
        let short = "+L5: push left, at place 5; -R11: pop right, at place 11; a dot: idle";
        let links =
            "1=700 <2/3 >0/0: slot 1 holds 700, its Left names slot 2 with tag 3, its Right none";
        let told = [(layout.cells == Cells::Short, short), (slots, links)];
        for (_, text) in told.into_iter().filter(|(wanted, _)| *wanted) {
            for line in wrapped(text, self.width) {
                writeln!(out, "{}", self.paint(&line, DIM))?;
            }
        }
        Ok(())
    }

    /// Each task's column, padded, the touched one's brought out.
    fn cells(&self, row: &Row<'_>, layout: Layout) -> Vec<String> {
        let cell = |(task, record): (usize, &Record)| {
            let text = match layout.cells {
                Cells::Full => words::standing(record),
                _ => words::standing_short(record),
            };
            let text = format!("{text:<width$}", width = layout.cell);
            match record.place {
                _ if row.touch.task.map(usize::from) == Some(task) => self.paint(&text, BOLD),
                0 => self.paint(&text, DIM),
                _ => text,
            }
        };
        match layout.cells {
            Cells::Below => Vec::new(),
            _ => row.records.iter().enumerate().map(cell).collect(),
        }
    }

    fn what_colour(row: &Row<'_>) -> Option<&'static str> {
        match row.touch.reply {
            Reply::Refused(_) | Reply::Malformed => Some(RED),
            _ if row.touch.effect => Some(GREEN),
            _ if row.touch.retry().is_some() => Some(YELLOW),
            _ => None,
        }
    }

    fn lines(&self, row: &Row<'_>, layout: Layout, out: &mut dyn Write) -> io::Result<()> {
        let (what, queue) = (wrapped(&row.what, layout.what), wrapped(&row.queue, layout.queue));
        let cells = self.cells(row, layout);
        let nothing = String::new();
        for at in 0..what.len().max(queue.len()) {
            let first = at == 0;
            let event = if first { row.touch.event.to_string() } else { nothing.clone() };
            let task = if first { cut(&row.task, layout.task) } else { nothing.clone() };
            let mark = if first && row.touch.effect { "*" } else { " " };
            let words = format!("{mark} {}", what.get(at).unwrap_or(&nothing));
            let words = format!("{words:<width$}", width = layout.what + 2);
            let words = match Table::what_colour(row) {
                Some(colour) => self.paint(&words, colour),
                None => words,
            };
            let mut line = vec![
                format!("{event:>width$}", width = layout.event),
                format!("{task:<width$}", width = layout.task),
                words,
            ];
            match first {
                true => line.extend(cells.iter().cloned()),
                false => line.extend(cells.iter().map(|_| " ".repeat(layout.cell))),
            }
            line.push(self.links(queue.get(at).unwrap_or(&nothing)));
            writeln!(out, "{}", line.join("  ").trim_end())?;
        }
        Ok(())
    }

    /// The queue with the link that is not made yet brought out.
    fn links(&self, queue: &str) -> String {
        queue.replace('~', &self.paint("~", YELLOW))
    }

    /// What has no column: the tasks' standings where there is no room, the slots where they are wanted.
    fn below(&self, row: &Row<'_>, layout: Layout, out: &mut dyn Write) -> io::Result<()> {
        let mut texts = Vec::new();
        if layout.cells == Cells::Below {
            let busy = row.records.iter().enumerate().filter(|(_, record)| record.place != 0);
            let told = busy.map(|(task, record)| {
                format!("{} {}", self.names.task(task as u8), words::standing(record))
            });
            let told: Vec<String> = told.collect();
            texts.push(if told.is_empty() { "all idle".into() } else { told.join(", ") });
        }
        texts.extend(row.slots.clone());
        let indent = layout.event + 2;
        for text in texts {
            for line in wrapped(&text, self.width.saturating_sub(indent)) {
                writeln!(out, "{}{}", " ".repeat(indent), self.paint(&line, DIM))?;
            }
        }
        Ok(())
    }
}

impl Sheet for Table {
    fn row(&mut self, row: &Row<'_>, out: &mut dyn Write) -> io::Result<()> {
        let layout = self.layout(row, out)?;
        self.lines(row, layout, out)?;
        self.below(row, layout, out)
    }

    fn end(&mut self, play: &mut Play<Library>, out: &mut dyn Write) -> io::Result<()> {
        writeln!(out)?;
        for line in sums::lines(play, &self.names) {
            let colour = if line.starts_with("LABELS") { RED } else { BOLD };
            for line in wrapped(&line, self.width) {
                writeln!(out, "{}", self.paint(&line, colour))?;
            }
        }
        Ok(())
    }
}

//! The wrong queue beside the right one, row by row; a row in which they differ is marked.

use super::options::Options;
use super::row::Row;
use super::sums;
use super::text::{cut, wrapped};
use crate::play::{Play, Touch};
use crate::queue::{Library, Machine};
use crate::run::Run;
use crate::say::Stop;
use crate::wrong::Wrong;
use reference::wrong::Fault;
use std::io::{self, Write};

/// The widths of the columns: event, task, and in each half what was done and what waits.
struct Layout {
    task: usize,
    what: usize,
    queue: usize,
}

const EVENT: usize = 5;

impl Layout {
    fn of(options: &Options, tasks: u8) -> Layout {
        let longest = (0..tasks).map(|task| options.names.task(task).len()).max().unwrap_or(0);
        let task = longest.clamp(4, 12);
        let half = options.width.saturating_sub(EVENT + 2 + task + 2 + 5).max(60) / 2;
        let what = (half - 4) * 3 / 5;
        Layout { task, what, queue: half - 4 - what }
    }

    fn half(&self, mark: &str, what: &str, queue: &str) -> String {
        format!("{mark} {what:<w$}  {queue:<q$}", w = self.what, q = self.queue)
    }
}

/// Both queues carried out: whether the run was well-formed.
pub fn rows(
    mut run: Run,
    options: &Options,
    (fault, said): (Fault, &'static str),
    out: &mut dyn Write,
) -> Result<bool, Stop> {
    let mut product = Play::of(Library::default());
    let mut other = Play::of(Wrong::with(fault));
    let (mut whole, mut layout) = (true, None);
    while let Some((at, operation)) = run.next()? {
        let Some(touch) = product.touch(at, operation) else { break };
        let Some(theirs) = other.touch(at, operation) else { break };
        whole &= touch.is_well_formed();
        if layout.is_none() {
            let made = Layout::of(options, super::tasks(&product.queue).end);
            heading(&made, said, out)?;
            layout = Some(made);
        }
        if let (Some(layout), true) = (&layout, options.shows(touch.event)) {
            let right = Row::of(&touch, &mut product.queue, options);
            let wrong = Row::of(&theirs, &mut other.queue, options);
            pair(layout, &right, &wrong, out)?;
        }
    }
    ending("THE PRODUCT", &mut product, options, out)?;
    ending(&format!("NOT THE PRODUCT: {said}"), &mut other, options, out)?;
    Ok(whole)
}

fn heading(layout: &Layout, said: &str, out: &mut dyn Write) -> io::Result<()> {
    let before = EVENT + 2 + layout.task + 2;
    let half = layout.half(" ", "", "").len();
    let right = "THE PRODUCT";
    writeln!(out, "{:before$}{right:<half$}  | NOT THE PRODUCT: {said}", "")?;
    let half = layout.half("*", "what it did", "waiting");
    let (event, task, width) = ("event", "task", layout.task);
    writeln!(out, "{}", format!("{event:<EVENT$}  {task:<width$}  {half}  |  {half}").trim_end())
}

fn pair(layout: &Layout, right: &Row<'_>, wrong: &Row<'_>, out: &mut dyn Write) -> io::Result<()> {
    let halves =
        |row: &Row<'_>| (wrapped(&row.what, layout.what), wrapped(&row.queue, layout.queue));
    let (ours, theirs) = (halves(right), halves(wrong));
    let lines = [&ours.0, &ours.1, &theirs.0, &theirs.1].map(Vec::len);
    let differs = ours != theirs;
    let nothing = String::new();
    for at in 0..lines.into_iter().max().unwrap_or(1) {
        let first = at == 0;
        let mark = |touch: &Touch| if first && touch.effect { "*" } else { " " };
        let text = |lines: &[String]| lines.get(at).cloned().unwrap_or_default();
        let event = if first { right.touch.event.to_string() } else { nothing.clone() };
        let task = if first { cut(&right.task, layout.task) } else { nothing.clone() };
        let line = format!(
            "{event:>EVENT$}  {task:<width$}  {}  |{} {}",
            layout.half(mark(right.touch), &text(&ours.0), &text(&ours.1)),
            if differs { "!" } else { " " },
            layout.half(mark(wrong.touch), &text(&theirs.0), &text(&theirs.1)),
            width = layout.task,
        );
        writeln!(out, "{}", line.trim_end())?;
    }
    Ok(())
}

fn ending<M: Machine>(
    title: &str,
    play: &mut Play<M>,
    options: &Options,
    out: &mut dyn Write,
) -> io::Result<()> {
    writeln!(out, "\n{title}")?;
    for line in sums::lines(play, &options.names) {
        for line in wrapped(&line, options.width.saturating_sub(2)) {
            writeln!(out, "  {line}")?;
        }
    }
    Ok(())
}

//! A run shown touch by touch: in a terminal, for a spreadsheet, as a page for a browser.

mod beside;
mod csv;
mod html;
mod options;
mod row;
mod sums;
mod table;
mod text;

pub use html::{escaped, title};
pub use options::USAGE;

pub(crate) use html::json;

use crate::play::Play;
use crate::queue::{Library, Machine};
use crate::run::Run;
use crate::say::Stop;
use options::{Form, Options};
use row::Row;
use std::io::{self, BufWriter, Write};
use std::ops::Range;
use table::Table;

/// Carries out what the command line asks for: 0, or 1 where the run is malformed.
pub fn work(arguments: Vec<String>) -> Result<u8, Stop> {
    let options = Options::of(arguments)?;
    let run = Run::open(options.run.as_deref())?;
    let mut out = BufWriter::new(io::stdout().lock());
    let whole = match options.form {
        Form::Html => html::page(run, &options, &mut out),
        Form::Csv => in_rows(run, &options, &mut csv::Csv::of(&options), &mut out),
        Form::Table => match options.without {
            Some(fault) => beside::rows(run, &options, fault, &mut out),
            None => in_rows(run, &options, &mut Table::of(&options), &mut out),
        },
    };
    out.flush()?;
    Ok(if whole? { 0 } else { 1 })
}

/// A run in text form as one page for a browser.
pub fn page(name: &str, text: String) -> Result<String, Stop> {
    let run = Run::of(name, Box::new(io::Cursor::new(text.into_bytes())))?;
    let mut page = Vec::new();
    html::page(run, &Options::of(vec!["--html".to_string()])?, &mut page)?;
    String::from_utf8(page).map_err(Stop::failed)
}

/// What rows are shown in.
trait Sheet {
    fn row(&mut self, row: &Row<'_>, out: &mut dyn Write) -> io::Result<()>;
    fn end(&mut self, play: &mut Play<Library>, out: &mut dyn Write) -> io::Result<()>;
}

/// Row by row, in constant memory: whether the run was well-formed.
fn in_rows(
    mut run: Run,
    options: &Options,
    sheet: &mut dyn Sheet,
    out: &mut dyn Write,
) -> Result<bool, Stop> {
    let mut play = Play::of(Library::default());
    let mut whole = true;
    while let Some((at, operation)) = run.next()? {
        let Some(touch) = play.touch(at, operation) else { break };
        whole &= touch.is_well_formed();
        if options.shows(touch.event) {
            sheet.row(&Row::of(&touch, &mut play.queue, options), out)?;
        }
    }
    sheet.end(&mut play, out)?;
    Ok(whole)
}

/// The tasks that were opened.
fn tasks(queue: &impl Machine) -> Range<u8> {
    0..queue.control().tasks as u8
}

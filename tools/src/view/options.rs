//! The command line of `view`.

use crate::say::{printable, Stop};
use crate::words::Names;
use crate::wrong;
use reference::wrong::Fault;
use std::env;
use std::fs::File;
use std::io::{self, IsTerminal};
use std::process::Command;

pub const USAGE: &str = "\
usage: tools/view [OPTION..] [RUN]

Shows a run touch by touch: what each touch did, where each task stands, and the labels that wait
from left to right. RUN is a run in the text form of tools/runfile, or a run file; standard input
where it is not named, or -.

  --names 0=scale,4=head   what tasks are called
  --slots                  the slots too: links with their tags, marks, and the pool's free slots
  --from N, --to M         only the touches N to M; the sums at the end are of the whole run
  --width N                so many columns wide; otherwise as wide as the terminal
  --csv                    the same rows for a spreadsheet
  --html                   one page for a browser, of at most 4,000 touches: the queue drawn at each
  --without FAULT          beside it a wrong queue, which is not the product, by the second program of the
                           tests. FAULT is what document 01 lists under faults that pass a spreadsheet:
                             8      place 8 is dropped, since place 6 looked already
                             tags   a link's tag is reset when its slot is pushed again
                             marks  a pop clears the mark at its Anchor change
                             ends   a pop tests the status before it asks whether l = r
                             once   a failed place 9 is taken for a failed push, which pushes twice

Status 0; 1 where the run cannot be read or is malformed; 2 for a wrong command line.";

/// What the rows become.
#[derive(Clone, Copy, Debug, PartialEq, Eq)]
pub enum Form {
    Table,
    Csv,
    Html,
}

#[derive(Clone, Debug)]
pub struct Options {
    pub run: Option<String>,
    pub names: Names,
    pub slots: bool,
    pub from: u64,
    pub to: u64,
    pub width: usize,
    pub colours: bool,
    pub form: Form,
    /// The fault of the wrong queue that is shown beside the right one, in words too.
    pub without: Option<(Fault, &'static str)>,
}

/// Columns where there is no terminal.
const PLAIN_WIDTH: usize = 120;

impl Options {
    pub fn of(arguments: Vec<String>) -> Result<Options, Stop> {
        let mut options = Options {
            run: None,
            names: Names::default(),
            slots: false,
            from: 1,
            to: u64::MAX,
            width: 0,
            colours: io::stdout().is_terminal() && env::var_os("NO_COLOR").is_none(),
            form: Form::Table,
            without: None,
        };
        let mut words = arguments.into_iter();
        while let Some(word) = words.next() {
            options.take(&word, &mut words)?;
        }
        if options.without.is_some() && options.form == Form::Csv {
            return Err(Stop::usage("--without has no form for a spreadsheet"));
        }
        if options.width == 0 {
            options.width = terminal_width().unwrap_or(PLAIN_WIDTH);
        }
        Ok(options)
    }

    fn take(&mut self, word: &str, more: &mut dyn Iterator<Item = String>) -> Result<(), Stop> {
        let mut value =
            || more.next().ok_or_else(|| Stop::usage(format!("{word} needs a value behind it")));
        match word {
            "--help" | "-h" => return Err(Stop::Help),
            "--names" => self.names = Names::of(&value()?).map_err(Stop::usage)?,
            "--slots" => self.slots = true,
            "--from" => self.from = number(word, &value()?)?,
            "--to" => self.to = number(word, &value()?)?,
            "--width" => self.width = number(word, &value()?)?.clamp(40, 1_000) as usize,
            "--without" => self.without = Some(fault(&value()?)?),
            "--csv" => self.form = Form::Csv,
            "--html" => self.form = Form::Html,
            _ if word.starts_with('-') && word != "-" => {
                return Err(Stop::usage(format!("unknown option {}", printable(word.as_bytes()))));
            }
            _ if self.run.is_some() => {
                let word = printable(word.as_bytes());
                return Err(Stop::usage(format!("one run at a time, and {word} is a second")));
            }
            _ => self.run = Some(word.to_string()),
        }
        Ok(())
    }

    /// Whether the rows of an event are wanted.
    pub fn shows(&self, event: u64) -> bool {
        (self.from..=self.to).contains(&event)
    }
}

fn fault(name: &str) -> Result<(Fault, &'static str), Stop> {
    wrong::fault(name).ok_or_else(|| {
        let (name, names) = (printable(name.as_bytes()), wrong::names());
        Stop::usage(format!("--without takes one of {names}, and not {name}"))
    })
}

fn number(option: &str, word: &str) -> Result<u64, Stop> {
    let shown = || printable(word.as_bytes());
    word.parse().map_err(|_| Stop::usage(format!("{option} takes a number, and not {}", shown())))
}

/// How wide the terminal is that standard output goes to.
fn terminal_width() -> Option<usize> {
    if !io::stdout().is_terminal() {
        return None;
    }
    let told = env::var("COLUMNS").ok().and_then(|word| word.parse().ok());
    told.or_else(|| {
        let terminal = File::open("/dev/tty").ok()?;
        let said = Command::new("stty").arg("size").stdin(terminal).output().ok()?;
        String::from_utf8(said.stdout).ok()?.split_whitespace().nth(1)?.parse().ok()
    })
    .filter(|&width| width >= 40)
}

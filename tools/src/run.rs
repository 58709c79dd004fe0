//! Reads a run, in its text form (that of `tools/runfile`) or as a run file, operation by operation and
//! in constant memory. Which of the two it is, its start tells: a text begins with a byte-order mark or a
//! byte that can be printed, a run file with neither.

mod fields;
mod text;

use crate::say::{printable, Stop};
use fields::Decoder;
use std::collections::VecDeque;
use std::fmt;
use std::fs::File;
use std::io::{self, BufRead, BufReader, Read};

/// What a run asks for, one after the other. A steps field is as many operations as it has tasks.
#[derive(Clone, Copy, Debug, PartialEq, Eq)]
pub enum Operation {
    Open {
        pooled: bool,
        tasks: u8,
        slots: u16,
        first_tag: u32,
    },
    /// Without a slot where the push leaves it to the pool.
    Push {
        task: u8,
        side: u8,
        slot: Option<u16>,
        label: u32,
    },
    Pop {
        task: u8,
        side: u8,
    },
    Step {
        task: u8,
    },
    /// Document 01's refusal 16; no operation follows.
    Malformed,
}

/// Where an operation stands.
#[derive(Clone, Copy, Debug, PartialEq, Eq)]
pub enum Place {
    /// Of a text, from 1.
    Line(u64),
    /// Of a run file, from 0: where its field begins.
    Byte(u64),
}

impl fmt::Display for Place {
    fn fmt(&self, out: &mut fmt::Formatter<'_>) -> fmt::Result {
        match self {
            Place::Line(line) => write!(out, "line {line}"),
            Place::Byte(byte) => write!(out, "byte {byte}"),
        }
    }
}

/// Run-file bytes piece by piece, from a run file or made of a text.
enum Source {
    File { input: Box<dyn BufRead>, read: u64 },
    Text { input: Box<dyn BufRead>, line: u64 },
}

impl Source {
    /// The next bytes and where they stand, or nothing at the end.
    fn piece(&mut self, name: &str) -> Result<Option<(Place, Vec<u8>)>, Stop> {
        let cannot_read = |error: io::Error| Stop::failed(format!("cannot read {name}: {error}"));
        match self {
            Source::File { input, read } => {
                let piece = input.fill_buf().map_err(cannot_read)?.to_vec();
                input.consume(piece.len());
                let at = Place::Byte(*read);
                *read += piece.len() as u64;
                Ok((!piece.is_empty()).then_some((at, piece)))
            }
            Source::Text { input, line } => {
                let mut found = Vec::new();
                if input.read_until(b'\n', &mut found).map_err(cannot_read)? == 0 {
                    return Ok(None);
                }
                *line += 1;
                let bytes = text::bytes_of(&found)
                    .map_err(|what| Stop::failed(format!("{name}:{line}: {what}")))?;
                Ok(Some((Place::Line(*line), bytes)))
            }
        }
    }
}

/// A run under way.
pub struct Run {
    name: String,
    source: Source,
    decoder: Decoder,
    ready: VecDeque<Operation>,
    at: Place,
}

const MARK: &[u8] = b"\xef\xbb\xbf"; // a byte-order mark

impl Run {
    /// The run in a file, or on standard input where none is named or it is `-`.
    pub fn open(path: Option<&str>) -> Result<Run, Stop> {
        match path {
            None | Some("-") => Run::of("standard input", Box::new(io::stdin())),
            Some(path) => {
                let name = printable(path.as_bytes());
                let opened = File::open(path)
                    .map_err(|error| Stop::failed(format!("cannot open {name}: {error}")))?;
                Run::of(&name, Box::new(opened))
            }
        }
    }

    /// The run that these bytes are; messages call it by this name.
    pub fn of(name: &str, bytes: Box<dyn Read>) -> Result<Run, Stop> {
        let mut input = BufReader::with_capacity(1 << 16, bytes);
        let start = first_bytes(&mut input)
            .map_err(|error| Stop::failed(format!("cannot read {name}: {error}")))?;
        let is_text = start.starts_with(MARK)
            || start.first().is_none_or(|byte| matches!(byte, b'\t'..=b'\r' | b' '..=b'~'));
        let after_mark = if start.starts_with(MARK) { &start[MARK.len()..] } else { &start[..] };
        let input: Box<dyn BufRead> = match is_text {
            true => Box::new(io::Cursor::new(after_mark.to_vec()).chain(input)),
            false => Box::new(io::Cursor::new(start).chain(input)),
        };
        let (source, at) = match is_text {
            true => (Source::Text { input, line: 0 }, Place::Line(1)),
            false => (Source::File { input, read: 0 }, Place::Byte(0)),
        };
        Ok(Run {
            name: name.to_string(),
            source,
            decoder: Decoder::default(),
            ready: VecDeque::new(),
            at,
        })
    }

    /// What messages call the run.
    pub fn name(&self) -> &str {
        &self.name
    }

    /// The next operation and where it stands; nothing at the end. No iterator: reading may fail.
    #[allow(clippy::should_implement_trait)]
    pub fn next(&mut self) -> Result<Option<(Place, Operation)>, Stop> {
        while self.ready.is_empty() {
            if let Some(at) = self.decoder.take(&mut self.ready) {
                self.at = at;
            } else if let Some((at, bytes)) = self.source.piece(&self.name)? {
                self.decoder.add(at, &bytes);
            } else {
                match self.decoder.end() {
                    Some(at) => {
                        self.at = at.unwrap_or(self.at);
                        self.ready.push_back(Operation::Malformed);
                    }
                    None => return Ok(None),
                }
            }
        }
        Ok(self.ready.pop_front().map(|operation| (self.at, operation)))
    }
}

/// As many bytes as a byte-order mark has, or all that there are.
fn first_bytes(input: &mut impl Read) -> io::Result<Vec<u8>> {
    let mut start = Vec::new();
    input.take(MARK.len() as u64).read_to_end(&mut start)?;
    Ok(start)
}

#[cfg(test)]
mod tests;

//! The lines of a trace: document 01, "The run file and its trace".

use crate::machine::Moved;
use crate::run::{Call, Event, Reply};
use std::io::{self, Write};

/// The trace's lines, gathered in large pieces.
pub struct Page<W: Write> {
    out: W,
    text: Vec<u8>,
    counter: Counter,
    anchor: Hexadecimal,
}

const PIECE: usize = 1 << 16;
const LONGEST_LINE: usize = 128;

impl<W: Write> Page<W> {
    /// A trace with its header line.
    pub fn new(out: W) -> Page<W> {
        let mut text = Vec::with_capacity(PIECE + LONGEST_LINE);
        text.extend_from_slice(b"event task call answer anchor\n");
        Page { out, text, counter: Counter::default(), anchor: Hexadecimal::of(0) }
    }

    /// How many events have been printed.
    pub fn events(&self) -> u64 {
        self.counter.value
    }

    /// Prints one event; `anchor` is Anchor afterwards.
    pub fn line(&mut self, event: &Event, anchor: u64) -> io::Result<()> {
        if self.anchor.word != anchor {
            self.anchor = Hexadecimal::of(anchor);
        }
        self.counter.advance();
        self.text.extend_from_slice(self.counter.digits());
        self.text.push(b' ');
        match event.task {
            Some(task) => decimal(&mut self.text, task.into()),
            None => self.text.push(b'-'),
        }
        match event.call {
            Call::Step => self.text.extend_from_slice(b" step "),
            Call::Push { .. } => self.text.extend_from_slice(b" push "),
            Call::Pop { .. } => self.text.extend_from_slice(b" pop "),
            Call::Open { .. } => self.text.extend_from_slice(b" open "),
            Call::File => self.text.extend_from_slice(b" file "),
        }
        write_reply(&mut self.text, event.reply);
        self.text.extend_from_slice(&self.anchor.line_end);
        if self.text.len() >= PIECE {
            self.out.write_all(&self.text)?;
            self.text.clear();
        }
        Ok(())
    }

    pub fn finish(&mut self) -> io::Result<()> {
        self.out.write_all(&self.text)?;
        self.text.clear();
        self.out.flush()
    }
}

fn write_reply(text: &mut Vec<u8>, reply: Reply) {
    match reply {
        Reply::Done => text.extend_from_slice(b"ok"),
        Reply::Moved(Moved::Running(place)) => numbered(text, b"at", place),
        Reply::Moved(Moved::Pushed) => text.extend_from_slice(b"pushed"),
        Reply::Moved(Moved::Empty) => text.extend_from_slice(b"empty"),
        Reply::Moved(Moved::NoSlot) => text.extend_from_slice(b"noslot"),
        Reply::Moved(Moved::Popped { slot, label }) => {
            numbered(text, b"got:", slot);
            numbered(text, b":", label.into());
        }
        Reply::Refused(refusal) => numbered(text, b"no", refusal.number().into()),
    }
}

#[inline]
fn numbered(text: &mut Vec<u8>, word: &[u8], number: u64) {
    text.extend_from_slice(word);
    decimal(text, number);
}

#[inline]
fn decimal(text: &mut Vec<u8>, number: u64) {
    match number {
        0..10 => text.push(b'0' + number as u8),
        _ => long_decimal(text, number),
    }
}

fn long_decimal(text: &mut Vec<u8>, mut number: u64) {
    let mut digits = [0; 20];
    let mut start = digits.len();
    loop {
        start -= 1;
        digits[start] = b'0' + (number % 10) as u8;
        number /= 10;
        if number == 0 {
            return text.extend_from_slice(&digits[start..]);
        }
    }
}

/// The event's number, counted in its printed digits: most events turn one digit.
struct Counter {
    value: u64,
    digits: [u8; 20],
    start: usize,
}

impl Default for Counter {
    fn default() -> Counter {
        Counter { value: 0, digits: [b'0'; 20], start: 19 }
    }
}

impl Counter {
    fn advance(&mut self) {
        self.value += 1;
        let mut digit = self.digits.len() - 1;
        while self.digits[digit] == b'9' {
            self.digits[digit] = b'0';
            digit -= 1;
        }
        self.digits[digit] += 1;
        self.start = self.start.min(digit);
    }

    fn digits(&self) -> &[u8] {
        &self.digits[self.start..]
    }
}

/// An Anchor as the line's end prints it, kept while Anchor stays.
struct Hexadecimal {
    word: u64,
    line_end: [u8; 18],
}

impl Hexadecimal {
    fn of(word: u64) -> Hexadecimal {
        let mut line_end = [b' '; 18];
        for (index, digit) in line_end[1..17].iter_mut().enumerate() {
            let nibble = (word >> (60 - 4 * index)) as u8 & 15;
            *digit = if nibble < 10 { b'0' + nibble } else { b'a' + nibble - 10 };
        }
        line_end[17] = b'\n';
        Hexadecimal { word, line_end }
    }
}

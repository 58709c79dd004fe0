//! The single count of failed changes that document 01 has, kept beside the counts of document 02,
//! #101: below its ceiling the records' counts add up to it.

use crate::places::MOST_RETRIES;
use crate::run::{Call, Event, Reply};
use crate::tables::{Record, Shared, Tables};
use crate::word::Anchor;

#[derive(Clone, Default, PartialEq, Eq, Hash)]
pub struct Ledger {
    /// One for each step since the opening whose change failed.
    single: u64,
    /// Whether the step that comes next meets a word that is not as read.
    outrun: bool,
}

/// The words that the changes at 2, 4, 9, 10, 14 and 17 compare.
fn outrun(shared: &Shared, record: &Record) -> bool {
    match record.place {
        2 | 4 | 10 => shared.control.anchor != record.seen,
        9 => {
            let links = shared.links(Anchor::unpack(record.seen).pushed_side());
            links.get(record.neighbour as usize) != Some(&record.link)
        }
        14 | 17 => shared.control.head != record.link,
        _ => false,
    }
}

impl Ledger {
    pub fn before(&mut self, tables: &Tables, record: Option<&Record>) {
        self.outrun = record.is_some_and(|record| outrun(&tables.shared, record));
    }

    /// After an event that was no refused opening.
    pub fn after(&mut self, tables: &Tables, event: &Event) -> Result<(), String> {
        match (event.call, event.reply) {
            (Call::Open { .. }, _) => self.single = 0,
            (Call::Step, Reply::Moved(_)) if self.outrun => {
                self.single = MOST_RETRIES.min(self.single + 1);
            }
            _ => {}
        }
        let records = &tables.records[..tables.shared.control.tasks as usize];
        let sum: u64 = records.iter().map(|record| record.retries).sum();
        if self.single < MOST_RETRIES && sum != self.single {
            return Err(format!("retries: the records count {sum}, the ledger {}", self.single));
        }
        Ok(())
    }
}

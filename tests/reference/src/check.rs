//! The judge of a run: no 34, the sequential deque content, the labels waiting its, *no slot* only when
//! there is none, the tasks' retries adding up, the invariant kept.

use crate::contents;
use crate::deque::SequentialDeque;
use crate::invariant;
use crate::machine::Moved;
use crate::pool;
use crate::refusal::Refusal;
use crate::retries::Ledger;
use crate::run::{Call, Event, Reply, Watcher};
use crate::tables::Tables;

#[derive(Clone, Default, PartialEq, Eq, Hash)]
pub struct Judge {
    deque: SequentialDeque,
    /// Anchor before the event that comes next.
    anchor: u64,
    /// A slot that nobody used when a push without a slot was about to step.
    idle_slot: Option<u64>,
    ledger: Ledger,
}

impl Watcher for Judge {
    fn before(&mut self, tables: &Tables, task: Option<u8>) {
        let control = &*tables.shared.control;
        let records = &tables.records[..control.tasks as usize];
        let record = task.and_then(|task| records.get(usize::from(task)));
        let asking = record.is_some_and(|record| (12..=14).contains(&record.place));
        self.anchor = control.anchor;
        self.ledger.before(tables, record);
        self.idle_slot = if asking { pool::idle_slot(tables) } else { None };
    }

    fn after(&mut self, tables: &Tables, event: &Event) -> Result<(), String> {
        match (event.call, event.reply) {
            (_, Reply::Refused(Refusal::Unsound)) => return Err("34 occurs".into()),
            (Call::File, _) | (Call::Open { .. }, Reply::Refused(_)) => return Ok(()),
            (Call::Open { .. }, _) => {}
            _ => self.deque.follow(event, self.anchor, tables.shared.control.anchor)?,
        }
        if let (Reply::Moved(Moved::NoSlot), Some(slot)) = (event.reply, self.idle_slot) {
            return Err(format!("no slot is answered, and nobody uses slot {slot}"));
        }
        self.ledger.after(tables, event)?;
        self.queue_agrees(tables)?;
        invariant::check(tables, self.deque.queue())
    }
}

impl Judge {
    fn queue_agrees(&self, tables: &Tables) -> Result<(), String> {
        let Some(entries) = contents::waiting(&tables.shared) else {
            return Err("waiting: the walk from end to end is broken".into());
        };
        if entries.iter().eq(self.deque.queue()) {
            return Ok(());
        }
        let queue = self.deque.queue();
        Err(format!("waiting: the tables hold {entries:?}, the deque {queue:?}"))
    }
}

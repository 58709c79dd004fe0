//! One touch as every form shows it.

use super::options::{Form, Options};
use super::{tasks, text};
use crate::play::{Reply, Touch};
use crate::queue::{Entry, Machine};
use crate::words;
use zeppolecape::{Anchor, Record, Refusal};

/// The labels that a task is said to see at the most.
const MOST_SEEN: usize = 4;

pub struct Row<'a> {
    pub touch: &'a Touch,
    /// Of the task, or `-`.
    pub task: String,
    pub what: String,
    pub anchor: Anchor,
    /// Of every task, in order.
    pub records: Vec<Record>,
    pub waiting: Result<Vec<Entry>, Refusal>,
    /// The labels waiting from left to right, drawn; in a terminal as many as find room.
    pub queue: String,
    /// The slots, where they are wanted.
    pub slots: Option<String>,
}

impl<'a> Row<'a> {
    pub fn of(touch: &'a Touch, queue: &mut impl Machine, options: &Options) -> Row<'a> {
        let waiting = queue.waiting();
        let drawn = |most| match &waiting {
            _ if !is_open(touch) => String::new(),
            Ok(entries) => words::chain(queue, entries, most),
            Err(_) => words::broken(queue),
        };
        let labels = match options.form {
            Form::Table => drawn(text::most_labels(options.width)),
            _ => drawn(usize::MAX),
        };
        let seen = if words::sees(touch) { drawn(MOST_SEEN) } else { String::new() };
        let is_empty = options.form == Form::Table && is_open(touch) && labels.is_empty();
        Row {
            task: touch.task.map_or("-".into(), |task| options.names.task(task)),
            what: words::touch(touch, &seen),
            anchor: queue.anchor(),
            records: tasks(queue).filter_map(|task| queue.record(task)).collect(),
            queue: if is_empty { "empty".into() } else { labels },
            slots: (options.slots && is_open(touch)).then(|| text::slots(queue)),
            touch,
            waiting,
        }
    }
}

/// Whether there is a queue to be shown.
fn is_open(touch: &Touch) -> bool {
    touch.after.0.tasks != 0
}

impl Touch {
    pub(super) fn is_well_formed(&self) -> bool {
        self.reply != Reply::Malformed
    }
}

//! What a row must say, from the second program: its events, its tables after each of them, and the papers'
//! words for places, answers and statuses.

use reference::contents;
use reference::machine::Moved;
use reference::run::{run, Call, Event, Reply, Watcher};
use reference::tables::{Record, Shared, Tables, POP};
use reference::word::{Anchor, Link};

/// The columns of one event: event, task, call, answer, tag, status, left end, right end, each task, the
/// queue, whether the call takes effect, all retries, Anchor.
pub type Row = Vec<String>;

#[derive(Default)]
struct Rows {
    anchor: u64,
    rows: Vec<Row>,
}

/// The rows of a run file.
pub fn rows(file: &[u8]) -> Vec<Row> {
    let mut watcher = Rows::default();
    run(file, std::io::sink(), &mut watcher).expect("nobody objects");
    watcher.rows
}

impl Watcher for Rows {
    fn before(&mut self, tables: &Tables<'_>, _: Option<u8>) {
        self.anchor = tables.shared.control.anchor;
    }

    fn after(&mut self, tables: &Tables<'_>, event: &Event) -> Result<(), String> {
        let control = &tables.shared.control;
        let anchor = Anchor::unpack(control.anchor);
        let ends = |word| (Anchor::unpack(word).left, Anchor::unpack(word).right);
        let spoken = matches!(event.reply, Reply::Moved(Moved::Empty | Moved::NoSlot));
        let moved = ends(self.anchor) != ends(control.anchor) && event.call == Call::Step;
        let records = &tables.records[..control.tasks as usize];
        let mut row = vec![
            (self.rows.len() + 1).to_string(),
            event.task.map_or("-".into(), |task| task.to_string()),
            called(event.call).into(),
            answered(event.reply),
            anchor.tag.to_string(),
            ["STABLE", "RPUSH", "LPUSH"][anchor.status as usize].into(),
            anchor.left.to_string(),
            anchor.right.to_string(),
        ];
        row.extend(records.iter().map(standing));
        row.push(queue(&tables.shared));
        row.push(if moved || spoken { "effect" } else { "" }.into());
        row.push(records.iter().map(|record| record.retries).sum::<u64>().to_string());
        row.push(format!("=\"{:016x}\"", control.anchor));
        self.rows.push(row);
        Ok(())
    }
}

fn called(call: Call) -> &'static str {
    match call {
        Call::Open { .. } => "open",
        Call::Push { .. } => "push",
        Call::Pop { .. } => "pop",
        Call::Step => "step",
        Call::File => "file",
    }
}

/// Document 01's words for the refusals, as the header has them; 16 is a run file's.
fn answered(reply: Reply) -> String {
    let refused = |number: u8| match number {
        10 => "tasks not 1 to 16",
        11 => "slots not 1 to 1,023",
        13 => "no such task",
        14 => "side not 0 or 1",
        15 => "slot not 1 to slots",
        16 => "the run file is malformed",
        30 => "the task is busy",
        31 => "the task is idle",
        32 => "the slot is taken",
        33 => "the Anchor tag is too high for another start",
        41 => "a slot named in a pooled queue, or none in the other",
        _ => "what no run after an opening is refused",
    };
    match reply {
        Reply::Done => "ok".into(),
        Reply::Moved(Moved::Running(place)) => format!("at {place}"),
        Reply::Moved(Moved::Pushed) => "pushed".into(),
        Reply::Moved(Moved::Empty) => "empty".into(),
        Reply::Moved(Moved::NoSlot) => "no slot".into(),
        Reply::Moved(Moved::Popped { slot, label }) => format!("popped {label} from slot {slot}"),
        Reply::Refused(refusal) => {
            format!("refused {}: {}", refusal.number(), refused(refusal.number()))
        }
    }
}

fn standing(record: &Record) -> String {
    let kind = if record.kind == POP { "pop" } else { "push" };
    let side = if record.side == 0 { "L" } else { "R" };
    match record.place {
        0 => "idle".into(),
        place => format!("{kind} {side} at {place}"),
    }
}

/// The labels waiting, with `~` where two neighbours do not name each other.
fn queue(shared: &Shared<'_>) -> String {
    let entries = contents::waiting(shared).expect("a run leaves a whole walk");
    let mut text = String::new();
    for (at, entry) in entries.iter().enumerate() {
        if let Some(before) = at.checked_sub(1).map(|at| entries[at].slot) {
            let right = Link(shared.rights[before as usize]).slot() == entry.slot;
            let left = Link(shared.lefts[entry.slot as usize]).slot() == before;
            text += if right && left { " - " } else { " ~ " };
        }
        text += &entry.label.to_string();
    }
    format!("[{text}]")
}

//! The wrong queues: of each example about one, the second program's judge, which judges the product in the
//! differential test, objects to nothing in the right queue and to the wrong one.

use reference::check::Judge;
use reference::run::{Call, Event, Reply, Watcher};
use reference::runfile::{Field, Fields};
use reference::tables::{Storage, Tables};
use reference::wrong::Fault;
use std::process::ExitCode;
use suite::{root, same, shell, Verdict};

const FAULTS: [(&str, Fault); 5] = [
    ("8", Fault::NoPlace8),
    ("tags", Fault::TagReset),
    ("marks", Fault::MarkClearedEarly),
    ("ends", Fault::StatusFirst),
    ("once", Fault::PushedTwice),
];

/// A judged run, with a fault or without.
struct Trial {
    storage: Storage,
    judge: Judge,
    fault: Option<Fault>,
}

impl Trial {
    fn event(&mut self, task: Option<u8>, call: Call) -> Result<(), String> {
        let mut tables = self.storage.lend();
        self.judge.before(&tables, task);
        let reply = act(&mut tables, task.unwrap_or_default().into(), call, self.fault);
        self.judge.after(&tables, &Event { task, call, reply })
    }

    fn field(&mut self, field: Field<'_>) -> Result<(), String> {
        match field {
            Field::Open { pooled, tasks, slots, first_tag } => {
                let mut tables = self.storage.lend();
                self.judge.before(&tables, None);
                tables.open(tasks.into(), slots.into(), first_tag).expect("examples open");
                let event = Event { task: None, call: Call::Open { pooled }, reply: Reply::Done };
                self.judge.after(&tables, &event)
            }
            Field::Push { task, side, slot, label } => {
                self.event(Some(task), Call::Push { side, slot, label })
            }
            Field::Pop { task, side } => self.event(Some(task), Call::Pop { side }),
            Field::Steps(tasks) => {
                tasks.iter().try_for_each(|&task| self.event(Some(task), Call::Step))
            }
        }
    }
}

fn act(tables: &mut Tables<'_>, task: u64, call: Call, fault: Option<Fault>) -> Reply {
    let started = match call {
        Call::Push { side, slot, label } => {
            tables.push(task, side.into(), slot.expect("a named queue").into(), label)
        }
        Call::Pop { side } => tables.pop(task, side.into()),
        _ => {
            let moved = match fault {
                Some(fault) => tables.step_wrong(task, fault),
                None => tables.step(task),
            };
            return moved.map_or_else(Reply::Refused, Reply::Moved);
        }
    };
    started.map_or_else(Reply::Refused, |()| Reply::Done)
}

/// What the judge says of an example's run.
fn judged(name: &str, fault: Option<Fault>) -> Result<(), String> {
    let text = root().join(format!("examples/without_{name}.txt"));
    let made = shell("\"$ROOT/tools/runfile\" \"$TEXT\"", &[("TEXT", &text)]);
    assert_eq!(made.status, 0, "{}", made.noise);
    let (storage, judge) = (Storage::default(), Judge::default());
    let mut trial = Trial { storage, judge, fault };
    Fields::of(&made.out).try_for_each(|field| trial.field(field.expect("a whole run")))
}

fn objected(name: &str, fault: Fault) -> Verdict {
    same(Ok(()), judged(name, None))?;
    match judged(name, Some(fault)) {
        Err(_) => Ok(()),
        Ok(()) => Err("  the judge is content with the wrong queue".into()),
    }
}

fn main() -> ExitCode {
    let mut checks = toolsuite::checks("wrong");
    for (name, fault) in FAULTS {
        checks.add(&format!("the judge objects without {name}"), move || objected(name, fault));
    }
    checks.main()
}

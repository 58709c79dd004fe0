//! A call as the second program carries it out.

use crate::world::{Call, Told, World};
use reference::find::{Found, MOST_ASKED};
use reference::machine::{Answer, Moved};
use reference::refusal::Refusal;
use reference::tables::{Shared, Tables};

fn found(answer: Result<Found, Refusal>) -> Told {
    let mut positions = [0; MOST_ASKED];
    match answer {
        Ok(found) => {
            for (to, at) in positions.iter_mut().zip(&found.positions) {
                *to = at.unwrap_or(0);
            }
            Told::Find(0, found.rows, positions)
        }
        Err(refusal) => Told::Find(u64::from(refusal.number()), 0, positions),
    }
}

fn refused(refusal: Refusal) -> Told {
    Told::Reply(u32::from(refusal.number()), 0, 0)
}

/// A start carried out is running at its first place.
fn started(answer: Result<(), Refusal>, place: u64) -> Told {
    answer.map_or_else(refused, |()| Told::Reply(1, 0, place))
}

fn opened(answer: Result<(), Refusal>) -> Told {
    answer.map_or_else(refused, |()| Told::Reply(0, 0, 0))
}

fn moved(answer: Answer) -> Told {
    match answer {
        Ok(Moved::Running(place)) => Told::Reply(1, 0, place),
        Ok(Moved::Pushed) => Told::Reply(2, 0, 0),
        Ok(Moved::Empty) => Told::Reply(3, 0, 0),
        Ok(Moved::Popped { slot, label }) => Told::Reply(4, label, slot),
        Ok(Moved::NoSlot) => Told::Reply(5, 0, 0),
        Err(refusal) => refused(refusal),
    }
}

pub fn by_reference(world: &mut World, call: Call) -> Told {
    let shared = Shared {
        control: &mut world.control,
        lefts: world.lefts.slice(),
        rights: world.rights.slice(),
        labels: world.labels.slice(),
        marks: world.marks.slice(),
        next: world.next.slice(),
    };
    if let Call::StepRecord | Call::StepRow { .. } = call {
        let mut shared = shared;
        let one = match call {
            Call::StepRow { task } => &mut world.records.held[task],
            _ => &mut world.one,
        };
        return moved(shared.step_lent(one));
    }
    if let Call::Find { asked, count } = call {
        return found(shared.find(&asked[..count]));
    }
    if let Call::Waiting = call {
        let told = shared.read_out(world.slots_out.slice(), world.labels_out.slice());
        return match told {
            Ok(count) => Told::Waiting(0, count),
            Err(refusal) => Told::Waiting(refusal.number().into(), 0),
        };
    }
    let mut tables = Tables { shared, records: world.records.slice() };
    match call {
        Call::Open { tasks, slots, tag } => opened(tables.open(tasks, slots, tag)),
        Call::OpenPooled { tasks, slots, tag } => opened(tables.open_pooled(tasks, slots, tag)),
        Call::Push { task, side, slot, label } => {
            started(tables.push(task as u64, side, slot, label), 1)
        }
        Call::PushPooled { task, side, label } => {
            started(tables.push_pooled(task as u64, side, label), 12)
        }
        Call::Pop { task, side } => started(tables.pop(task as u64, side), 1),
        Call::Step { task } => moved(tables.step(task as u64)),
        Call::Run { task, most } => {
            let (answer, steps) = tables.run(task as u64, most);
            let Told::Reply(code, label, value) = moved(answer) else { unreachable!() };
            Told::Run(code, label, value, steps)
        }
        Call::StepRecord | Call::StepRow { .. } | Call::Find { .. } | Call::Waiting => {
            unreachable!()
        }
        Call::Report => match tables.report() {
            Ok(told) => {
                let anchor = [told.tag, told.status, told.left, told.right];
                let counts = [told.busy, told.waiting, told.taken];
                Told::Report(0, anchor, counts, told.retries)
            }
            Err(refusal) => Told::Report(refusal.number().into(), [0; 4], [0; 3], [0; 16]),
        },
    }
}

//! A call as the library carries it out.

use crate::calls::called;
use crate::world::{Call, Told, World};
use zeppolecape::raw;

/// The library's tables behind the given arguments.
macro_rules! library {
    ($world:ident . $name:ident($($argument:expr),*) $($next:ident)?) => {
        unsafe {
            called!($name(
                $($argument,)*
                $world.lefts.pointer(),
                $world.lefts.count,
                $world.rights.pointer(),
                $world.rights.count,
                $world.labels.pointer(),
                $world.labels.count,
                $world.marks.pointer(),
                $world.marks.count,
                $($world.$next.pointer(), $world.$next.count,)?
            ))
        }
    };
}

pub fn by_library(world: &mut World, call: Call) -> Told {
    let control: *mut raw::Control = (&raw mut world.control).cast();
    let records: *mut raw::Record = world.records.pointer().cast();
    let count = world.records.count;
    let reply = match call {
        Call::Open { tasks, slots, tag } => {
            let code = library!(world.zc_open(control, records, count, tasks, slots, tag));
            return Told::Reply(code, 0, 0);
        }
        Call::OpenPooled { tasks, slots, tag } => {
            let code =
                library!(world.zc_open_pooled(control, records, count, tasks, slots, tag) next);
            return Told::Reply(code, 0, 0);
        }
        Call::Push { task, side, slot, label } => {
            library!(world.zc_push(control, records, count, task, side, slot, label) next)
        }
        Call::PushPooled { task, side, label } => {
            library!(world.zc_push_pooled(control, records, count, task, side, label) next)
        }
        Call::Pop { task, side } => {
            library!(world.zc_pop(control, records, count, task, side) next)
        }
        Call::Step { task } => library!(world.zc_step(control, records, count, task) next),
        Call::Run { task, most } => {
            let told = library!(world.zc_run(control, records, count, task, most) next);
            return Told::Run(told.code, told.label, told.value, told.steps);
        }
        Call::StepRecord => {
            let one: *mut raw::Record = (&raw mut world.one).cast();
            library!(world.zc_step_record(control, one) next)
        }
        Call::StepRow { task } => {
            let one: *mut raw::Record = (&raw mut world.records.held[task]).cast();
            library!(world.zc_step_record(control, one) next)
        }
        Call::Report => {
            let told = library!(world.zc_report(control, records, count) next);
            let anchor = [told.tag, told.status, told.left, told.right];
            let counts = [told.busy, told.waiting, told.taken];
            return Told::Report(told.code, anchor, counts, told.retries);
        }
        Call::Find { asked, count } => {
            let found = library!(world.zc_find(control, asked.as_ptr(), count));
            return Told::Find(found.code, found.rows, found.positions);
        }
        Call::Waiting => {
            let (slots, slot_count) = (world.slots_out.pointer(), world.slots_out.count);
            let (labels, label_count) = (world.labels_out.pointer(), world.labels_out.count);
            let told = library!(world.zc_waiting(control, slots, slot_count, labels, label_count));
            return Told::Waiting(told.code, told.count);
        }
    };
    Told::Reply(reply.code, reply.label, reply.value)
}

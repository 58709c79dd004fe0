//! The label queue: a double-ended queue that up to 16 tasks share, moved one touch at a time.
//!
//! [`SharedQueue`] is for threads and cores: each has a [`Handle`], nobody holds a lock, and wherever a
//! thread is stopped the others go on. [`Queue`] is for an executive whose step is one undivided touch:
//! it makes each call by `&mut self`, with plain loads and stores, so that one is under way at a time.
//!
//! Both own their tables. [`Tables`] lends tables that the caller keeps elsewhere, with any
//! contents and any lengths. [`Shelves`] keep copies of a queue to go back to. [`audit()`] checks a
//! history of finished calls. [`raw`] holds the C declarations themselves.
//!
//! ```
//! use zeppolecape::{Answer, Queue, Side};
//!
//! let mut queue = Queue::open_pooled(2, 3, 0)?; // tasks 0 and 1, slots 1 to 3, first tag 0
//! queue.push_pooled(0, Side::Right, 700)?; // task 0 starts: label 700, in a slot from the pool
//! assert_eq!(queue.step(0)?, Answer::Running(13)); // one touch; place 13 comes next
//! assert_eq!(queue.finish(0)?, Answer::Pushed);
//! queue.pop(1, Side::Left)?;
//! assert_eq!(queue.finish(1)?, Answer::Popped { slot: 1, label: 700 });
//! # Ok::<(), zeppolecape::Refusal>(())
//! ```
//!
//! [`Queue::open`] is for a caller who names the slot of each label: [`Queue::push`].
//!
//! Every call is proved, for all arguments and any contents of the tables, to do what its definition
//! says. This crate is a thin layer above the proved calls and is not itself proved.
#![no_std]

extern crate alloc;

mod audit;
mod cells;
mod find;
mod join;
mod numbers;
mod queue;
pub mod raw;
mod schedules;
mod serve;
mod shared;
mod sheet;
mod shelves;
mod tables;
#[cfg(test)]
mod tests;
mod waiting;

pub use audit::{audit, audit_words, Finished, Verdict, MOST_CALLS};
pub use find::Found;
pub use numbers::*;
pub use queue::Queue;
pub use raw::{Control, Record};
pub use schedules::{Ending, Schedule, Schedules, MOST_SCHEDULE, SCHEDULE_WORDS};
pub use serve::{Request, ANSWER_WORDS, REQUEST_WORDS};
pub use shared::{Handle, Handles, SharedQueue};
pub use sheet::{rule, SheetVerdict, MOST_LISTED, MOST_RULES, SHEET_WORDS};
pub use shelves::{ShelfTables, Shelves, SHELVES};
pub use tables::Tables;

/// The version of this crate, and of the header and the library that it goes with.
pub const VERSION: &str = env!("CARGO_PKG_VERSION");

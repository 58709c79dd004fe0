//! An independent implementation of documents 01 and 02, written from the papers alone.
//!
//! The machine: `word` (packed words), `tables` (what is lent), `refusal` (the
//! ordered tests), `places` (what a step does), `machine`, `find` and `read_out` (the outside calls).
//! The program: `runfile` (fields in), `run` (events), `trace` (lines out).
//! Over the tables: `sheet` (document 02, #111 and #112), `schedules` (#107), `join` (#113),
//! `shelf` (#109).
//! The judge: `deque` (sequential, document 01's clerk), `contents` (labels waiting), `pool` (free
//! slots), `invariant` (what holds between any two steps), `retries` (the counts' sum), `check`
//! (all of them at once).
//! The differential test: `dice`, `script`, `shift`, `scenario`, `malformed`, `coverage`, `ways`.
//! Every interleaving of a few calls: `search`.
//! For tests that drive the calls themselves: `damage` (tables that no run leaves).
//! To be looked at beside the right queue: `wrong` (the faults that pass a spreadsheet).

pub mod audit;
pub mod check;
pub mod contents;
pub mod coverage;
pub mod damage;
pub mod deque;
pub mod dice;
pub mod find;
pub mod invariant;
pub mod join;
pub mod machine;
pub mod malformed;
mod places;
pub mod pool;
mod read_out;
pub mod refusal;
mod retries;
pub mod run;
pub mod runfile;
pub mod scenario;
pub mod schedules;
pub mod script;
pub mod search;
pub mod sheet;
pub mod shelf;
pub mod shift;
pub mod tables;
pub mod trace;
mod ways;
pub mod word;
pub mod wrong;

//! What the tools share: `run` reads runs, `queue` carries them out by the library's calls, `play`
//! follows each call from its start over its effect to its answer, `words` names things, `wrong` is a
//! wrong queue to be seen beside the right one, `say` is the one style of messages and statuses. The binaries beside it are thin.

pub mod history;
pub mod play;
pub mod queue;
pub mod run;
pub mod say;
pub mod schedules;
pub mod sheet;
pub mod verdict;
pub mod view;
pub mod words;
pub mod wrong;

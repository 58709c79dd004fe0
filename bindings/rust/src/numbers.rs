//! Limits, sides, answers, refusals, and words taken apart.

use crate::raw;
use core::fmt;

/// The most tasks of a queue.
pub const MOST_TASKS: u64 = 16;
/// The most slots of a queue.
pub const MOST_SLOTS: u64 = 1_023;
/// Labels that [`Queue::find`](crate::Queue::find) takes.
pub const MOST_ASKED: usize = 32;
/// With a higher Anchor tag a start is refused [`Refusal::Worn`].
pub const LAST_START_TAG: u64 = 4_294_967_262;
/// Where a task's count of retries stays.
pub const MOST_RETRIES: u64 = 4_294_967_295;

/// A push with a named slot, stepped alone, answers within so many steps, wherever the other tasks
/// stopped, in a queue moved by these calls alone; a refused step does not count. This is proved.
pub const PUSH_STEPS: u64 = 18;
/// The same of a pop.
pub const POP_STEPS: u64 = 13;
/// The same of a push in a pooled queue, proved too: 13, 14, 12, 13, 14 where its head is of long ago,
/// and the 16 steps that a push needs at most from place 1.
pub const POOLED_PUSH_STEPS: u64 = 21;
/// The same of a pop in a pooled queue: 15 to 17 are three steps more.
pub const POOLED_POP_STEPS: u64 = 16;

/// So many steps, of whatever tasks, hold one with which a call takes effect or answers, in a queue
/// with named slots; a refused step does not count. This is proved.
pub const fn stretch(tasks: u64) -> u64 {
    26 * tasks
}

/// The same in a pooled queue: 20 for each task, and 3 for each pair of them, since a task that draws
/// its slot may send each other one back.
pub const fn pooled_stretch(tasks: u64) -> u64 {
    20 * tasks + 3 * (tasks * tasks.saturating_sub(1) / 2)
}

/// Entries of `lefts`, `rights`, `labels` and `next`.
pub const fn rows(slots: u64) -> usize {
    slots as usize + 1
}

/// Entries of `marks`: bit n mod 64 of word n div 64 is set while slot n is taken.
pub const fn mark_words(slots: u64) -> usize {
    slots as usize / 64 + 1
}

/// An end of the queue.
#[derive(Clone, Copy, Debug, PartialEq, Eq)]
pub enum Side {
    /// The left end.
    Left = raw::LEFT as isize,
    /// The right end.
    Right = raw::RIGHT as isize,
}

/// What a start or step answers when it is carried out; a start is running at place 1, a pooled
/// push at 12.
#[derive(Clone, Copy, Debug, PartialEq, Eq)]
pub enum Answer {
    /// With the place of the next step.
    Running(u64),
    /// The push is answered.
    Pushed,
    /// The pop is answered: nothing was waiting.
    Empty,
    /// The pop is answered.
    Popped {
        /// The slot, free again.
        slot: u64,
        /// Its label.
        label: u32,
    },
    /// A pooled push found every slot in use, and nothing was pushed.
    NoFreeSlot,
}

/// The refusals, each with its number and its words.
macro_rules! refusals {
    ($($name:ident = $number:literal, $words:literal $(, $more:literal)?;)*) => {
        /// Why a call was refused, with its number. Every table kept its contents.
        #[derive(Clone, Copy, Debug, PartialEq, Eq)]
        pub enum Refusal {
            $(#[doc = $words] $(#[doc = $more])? $name = $number,)*
        }

        impl Refusal {
            /// Its number.
            pub fn number(self) -> u32 {
                self as u32
            }

            /// The refusal with a number.
            pub fn numbered(number: u64) -> Option<Refusal> {
                match number {
                    $($number => Some(Refusal::$name),)*
                    _ => None,
                }
            }

            /// Why, in words.
            pub fn words(self) -> &'static str {
                match self {
                    $(Refusal::$name => $words,)*
                }
            }
        }
    };
}

refusals! {
    BadTasks = 10, "tasks not 1 to 16";
    BadSlots = 11, "slots not 1 to 1,023";
    Short = 12, "a lent table is too short";
    NoTask = 13, "no such task";
    NoSide = 14, "side not 0 or 1";
    BadSlot = 15, "slot not 1 to slots", "(not [`Answer::NoFreeSlot`], which is an answer)";
    Busy = 30, "the task is busy";
    Idle = 31, "the task is idle";
    Taken = 32, "the slot is taken";
    Worn = 33, "the Anchor tag is too high for another start", "(see [`Queue::renew`](crate::Queue::renew))";
    Unsound = 34, "the tables are unsound", "(somebody else wrote there, or the queue was never opened)";
    BadHistory = 40, "not a history that can be judged", "(of [`audit`](crate::audit()) alone)";
    WrongPush = 41, "a slot named in a pooled queue, or none in the other";
    NotTwo = 42, "not two busy tasks, or over four labels waiting", "(of [`Queue::schedules`](crate::Queue::schedules) alone)";
    NoShelf = 43, "shelf not 0 to 7", "(of [`Queue::save`](crate::Queue::save) and [`Queue::return_to`](crate::Queue::return_to))";
    Unfilled = 44, "the shelf was never filled", "(of [`Queue::return_to`](crate::Queue::return_to) alone)";
    ManyAsked = 45, "more than 32 labels asked for", "(of [`Queue::find`](crate::Queue::find) alone)";
    BadSheet = 46, "the sheet is malformed", "(of [`Queue::sheet`](crate::Queue::sheet) alone)";
    NotAtRest = 47, "a queue is not at rest, or the third is not fresh", "(of [`Queue::join`](crate::Queue::join) alone)";
    Crowded = 48, "more labels than slots in the third queue", "(of [`Queue::join`](crate::Queue::join) alone)";
}

impl Refusal {
    /// The name of [`Refusal::BadSlot`] before version 5.
    #[allow(non_upper_case_globals)]
    pub const NoSlot: Refusal = Refusal::BadSlot;

    /// The refusal that the library answered.
    pub(crate) fn answered(number: u64) -> Refusal {
        Refusal::numbered(number).unwrap_or_else(|| panic!("the library answered code {number}"))
    }
}

impl fmt::Display for Refusal {
    fn fmt(&self, out: &mut fmt::Formatter<'_>) -> fmt::Result {
        write!(out, "{}: {}", self.number(), self.words())
    }
}

impl core::error::Error for Refusal {}

/// A reply as a result.
pub(crate) fn outcome(reply: raw::Reply) -> Result<Answer, Refusal> {
    match reply.code {
        raw::RUNNING => Ok(Answer::Running(reply.value)),
        raw::PUSHED => Ok(Answer::Pushed),
        raw::EMPTY => Ok(Answer::Empty),
        raw::POPPED => Ok(Answer::Popped { slot: reply.value, label: reply.label }),
        raw::NO_FREE_SLOT => Ok(Answer::NoFreeSlot),
        number => Err(Refusal::answered(u64::from(number))),
    }
}

/// An Anchor word taken apart. Status 0 is STABLE, 1 RPUSH, 2 LPUSH; end 0 is null.
#[derive(Clone, Copy, Debug, PartialEq, Eq)]
pub struct Anchor {
    /// Raised by one with each change.
    pub tag: u64,
    /// [`raw::STABLE`], [`raw::RPUSH`] or [`raw::LPUSH`].
    pub status: u64,
    /// The slot of the leftmost label.
    pub left: u64,
    /// The slot of the rightmost label.
    pub right: u64,
}

impl Anchor {
    /// The fields of a word.
    pub fn of(word: u64) -> Anchor {
        Anchor {
            tag: word >> 32,
            status: word >> 30 & 3,
            left: word >> 15 & 0x7fff,
            right: word & 0x7fff,
        }
    }
}

/// The slot that a link word names.
pub fn link_slot(word: u64) -> u64 {
    word & 0x7fff
}

/// The tag of a link word.
pub fn link_tag(word: u64) -> u64 {
    word >> 32
}

/// What a report tells.
#[derive(Clone, Copy, Debug, PartialEq, Eq)]
pub struct Report {
    /// Anchor's fields.
    pub anchor: Anchor,
    /// Tasks with a call under way.
    pub busy: u64,
    /// Labels in the queue.
    pub waiting: u64,
    /// Marks set for slots 1 to slots, half-done calls included.
    pub taken: u64,
    /// Of each task, the changes that failed because another was faster, since the opening; 0
    /// beyond the tasks.
    pub retries: [u64; MOST_TASKS as usize],
}

/// What a run of steps answered, and the steps made.
#[derive(Clone, Copy, Debug, PartialEq, Eq)]
pub struct Run {
    /// The last step's; running at the task's place if no step was left to make.
    pub outcome: Result<Answer, Refusal>,
    /// The steps made; a refused one is none.
    pub steps: u64,
}

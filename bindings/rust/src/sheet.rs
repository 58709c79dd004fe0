//! Order sheets: which of the listed labels prints before which.

use crate::tables::{look, Shared};
use crate::{raw, Queue, Refusal, Tables};

/// With more labels a sheet is refused [`Refusal::BadSheet`].
pub const MOST_LISTED: usize = 32;
/// With more rules a sheet is refused [`Refusal::BadSheet`].
pub const MOST_RULES: usize = 128;
/// The words that [`Queue::sheet_words`] is lent; with fewer it is refused [`Refusal::Short`].
pub const SHEET_WORDS: usize = 32;

/// The rule that the label at place `first` of the list, from 1, prints before the one at `second`.
/// A place above 65,535 becomes 0, which is outside every list.
pub const fn rule(first: u64, second: u64) -> u32 {
    const fn place(number: u64) -> u32 {
        if number > 65_535 {
            0
        } else {
            number as u32
        }
    }
    place(first) << 16 | place(second)
}

/// Whether the labels waiting keep a sheet.
#[derive(Clone, Copy, Debug, PartialEq, Eq)]
pub enum SheetVerdict {
    /// Every chained pair prints in its order.
    Kept,
    /// The first broken pair: the smallest first place, then the smallest second.
    Broken {
        /// Its place in the list, from 1.
        first: u64,
        /// Its place in the list, from 1.
        second: u64,
    },
}

fn verdict(reply: raw::SheetReply) -> Result<SheetVerdict, Refusal> {
    match reply {
        raw::SheetReply { code: 0, first: 0, second: 0 } => Ok(SheetVerdict::Kept),
        raw::SheetReply { code: 0, first, second } => Ok(SheetVerdict::Broken { first, second }),
        raw::SheetReply { code, .. } => Err(Refusal::answered(code)),
    }
}

fn sheet(tables: Shared<'_>, listed: &[u32], rules: &[u32]) -> Result<SheetVerdict, Refusal> {
    let (count, many) = (listed.len(), rules.len());
    verdict(look!(tables.zc_sheet(listed.as_ptr(), count, rules.as_ptr(), many)))
}

fn sheet_words(
    tables: Shared<'_>,
    listed: &[u32],
    rules: &[u32],
    words: &mut [u32],
) -> Result<SheetVerdict, Refusal> {
    let (count, many) = (listed.len(), rules.len());
    let (lent, room) = (words.as_mut_ptr(), words.len());
    let (listed, rules) = (listed.as_ptr(), rules.as_ptr());
    verdict(look!(tables.zc_sheet_words(listed, count, rules, many, lent, room)))
}

impl Tables<'_> {
    /// Whether the labels waiting keep a sheet of listed labels and rules on their places, made by
    /// [`rule`]. Refuses 34 for control, 46, 12 (no records), 34 for the walk.
    pub fn sheet(&self, listed: &[u32], rules: &[u32]) -> Result<SheetVerdict, Refusal> {
        sheet(self.shared(), listed, rules)
    }

    /// The same with 32 lent words, which then hold the chained rules: bit b of word a is set if
    /// place a + 1 is chained before place b + 1. A refusal leaves them. 12 looks at them too.
    pub fn sheet_words(
        &self,
        listed: &[u32],
        rules: &[u32],
        words: &mut [u32],
    ) -> Result<SheetVerdict, Refusal> {
        sheet_words(self.shared(), listed, rules, words)
    }
}

impl Queue {
    /// Whether the labels waiting keep a sheet of listed labels and rules on their places, made by
    /// [`rule`]. Refuses 46.
    pub fn sheet(&self, listed: &[u32], rules: &[u32]) -> Result<SheetVerdict, Refusal> {
        sheet(self.shared(), listed, rules)
    }

    /// The same with 32 lent words, which then hold the chained rules: bit b of word a is set if
    /// place a + 1 is chained before place b + 1. A refusal leaves them. Refuses 46, 12.
    pub fn sheet_words(
        &self,
        listed: &[u32],
        rules: &[u32],
        words: &mut [u32],
    ) -> Result<SheetVerdict, Refusal> {
        sheet_words(self.shared(), listed, rules, words)
    }
}

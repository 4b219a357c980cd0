//! The quick search: "Passing over a status whole."

use crate::completion::{complete_skipping, Completed};
use crate::dates::{Date, Record};
use crate::refusal::Refusal;
use crate::rules::fails_for_status;

/// What a quick search found.
#[derive(Clone, Copy, Debug, PartialEq, Eq, Hash)]
pub struct Quick {
    /// "The sheet, count, set and refusal of the search already there, skipped
    /// fillings included in the count".
    pub answer: Result<Completed, Refusal>,
    /// "With a sheet or 10 it also returns how many statuses it skipped"; otherwise
    /// 0.
    pub skipped: u32,
}

/// Completes a draft with the same answer and sheet as
/// [`complete`](crate::complete): "A quick search skips all fillings of a status
/// once a rule that reads neither 106, 108 nor 109 (5, 7 to 14, 16, 19 to 24, 27,
/// 28, 30) fails for it."
///
/// Skipped are, "of those up to the sheet's, with 10 of all, exactly those for which
/// such a rule fails; a given 101 is the only one".
pub fn quick(draft: &[u8], sheet: &mut [u8], date: Date, record: Record) -> Quick {
    let mut skipped = 0;
    let answer = complete_skipping(draft, sheet, date, record, |filling, class, dates| {
        let fails = fails_for_status(filling, class, dates);
        skipped += u32::from(fails);
        fails
    });
    Quick { answer, skipped }
}

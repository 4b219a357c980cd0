//! Sheets and drafts by their differences from the paper's sheet S.

use cases::Texts;
use reference::{Class, Completed, Date, Record, Refusal};

use crate::layout::draft_of;

/// The program's order date.
const ORDER_DATE: Date = Date(20_240_101);

pub type Change<'a> = (u8, &'a [u8]);

/// The texts of S with some fields changed.
pub fn texts(changes: &[Change<'_>]) -> Texts {
    changes
        .iter()
        .fold(Texts::s(), |texts, &(field, text)| texts.with(field, text))
}

pub fn sheet(changes: &[Change<'_>]) -> Vec<u8> {
    texts(changes).sheet().to_vec()
}

/// A draft with every slot at revision 1, the adviser's.
pub fn draft(changes: &[Change<'_>]) -> Vec<u8> {
    draft_of(&texts(changes), |_| 1).to_vec()
}

pub fn broken(field: u8, rule: u8) -> Refusal {
    Refusal::Broken { field, rule }
}

/// Checks a sheet at the program's order date.
pub fn check(sheet: &[u8]) -> Result<Class, Refusal> {
    reference::check(sheet, ORDER_DATE, Record::GIVEN)
}

/// Completes a draft at the program's order date.
pub fn complete(draft: &[u8], sheet: &mut [u8]) -> Result<Completed, Refusal> {
    reference::complete(draft, sheet, ORDER_DATE, Record::GIVEN)
}

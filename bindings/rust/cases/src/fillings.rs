//! All fillings of an order, as an explicit list.

use crate::dates::Dates;
use crate::forms::list_at;
use crate::texts::{Texts, FIELDS, FILLABLE};

/// All fillings in order: of two, the earlier has the earlier list entry in the
/// first field where they differ. Slot order has 101, 106, 108, 109 in theirs.
#[must_use]
pub fn fillings(given: &Texts) -> Vec<Texts> {
    fillings_at(given, Dates::PROGRAM)
}

/// The same at other dates.
#[must_use]
pub fn fillings_at(given: &Texts, dates: Dates) -> Vec<Texts> {
    FIELDS.into_iter().fold(vec![*given], |fillings, field| {
        let entries = list_at(field, dates);
        if !given.get(field).is_empty() || entries.is_empty() {
            return fillings;
        }
        let fill = |filling: &Texts| {
            let filling = *filling;
            let filled = entries.iter().map(move |entry| filling.with(field, entry));
            filled.collect::<Vec<_>>()
        };
        fillings.iter().flat_map(fill).collect()
    })
}

/// The set of the blank fields that have a list.
#[must_use]
pub fn filled_set(given: &Texts) -> u16 {
    (0..15)
        .filter(|&slot| given.get(FIELDS[slot]).is_empty() && FILLABLE.contains(&FIELDS[slot]))
        .fold(0, |set, slot| set | 1 << slot)
}

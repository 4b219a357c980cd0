//! Where the fields' texts stand, and the lists of the fields that can be filled.

use crate::{entry, Entry, Terms, FIELDS};

/// The slot of a listed field, from 0: [`FIELDS`] has the field of each slot.
///
/// ```
/// use kieselbrot::{slot_of, FIELDS};
///
/// assert_eq!((slot_of(101), FIELDS[6]), (Some(6), 101));
/// assert_eq!(slot_of(16), None);
/// ```
#[must_use]
pub const fn slot_of(field: u8) -> Option<usize> {
    let mut slot = 0;
    while slot < FIELDS.len() {
        if FIELDS[slot] == field {
            return Some(slot);
        }
        slot += 1;
    }
    None
}

/// The bytes of a field's slot, of this size.
pub fn slot(bytes: &[u8], size: usize, field: u8) -> Option<&[u8]> {
    bytes.chunks_exact(size).nth(slot_of(field)?)
}

/// The text in a slot of a sheet, or behind revision and party in one of a draft; at most 25
/// bytes, whatever length the slot tells.
pub fn text(slot: &[u8]) -> &[u8] {
    match slot {
        [length, text @ ..] => text.get(..usize::from(*length)).unwrap_or(text),
        [] => &[],
    }
}

/// A field's list in completion, as the library tells it; empty if it has none or the dates
/// are refused.
pub fn list(field: u8, terms: Terms) -> Vec<Entry> {
    let entries = (0..).map_while(|place| entry(field, place, terms).ok()?);
    entries.collect()
}

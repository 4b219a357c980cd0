//! The texts of `bindings/words.txt`, from which the C header has them, too.

use crate::{slot_of, FIELDS};

include!(concat!(env!("OUT_DIR"), "/words.rs"));

const _: () = assert!(FIELD_NAMES.len() == FIELDS.len());

/// The name of the field in a slot.
pub const fn field_name(number: u8) -> Option<&'static str> {
    match slot_of(number) {
        Some(slot) if FIELD_NAMES[slot].0 == number => Some(FIELD_NAMES[slot].1),
        _ => None,
    }
}

/// What a rule wants, with [`LIST`] where statuses follow.
pub const fn rule(number: u8) -> Option<&'static str> {
    numbered(&RULES, number)
}

/// What a refusal's number says.
pub const fn refusal(number: u8) -> Option<&'static str> {
    numbered(&REFUSALS, number)
}

/// A party's name.
pub const fn party(number: u8) -> Option<&'static str> {
    numbered(&PARTIES, number)
}

/// Where this stands in a rule's text, statuses follow that the date allows: in rule 10 all of
/// them, in rule 19 those of [`treasury`].
pub const LIST: &str = "{}";

/// Rule 19's statuses.
pub const fn treasury() -> &'static [&'static str] {
    &TREASURY
}

/// The text with this number, from 1.
const fn numbered(texts: &[&'static str], number: u8) -> Option<&'static str> {
    let number = number as usize;
    if number == 0 || number > texts.len() {
        return None;
    }
    Some(texts[number - 1])
}

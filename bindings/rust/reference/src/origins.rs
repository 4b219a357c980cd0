//! Which message of an input each slot ends with.

use std::cmp::Reverse;

use crate::field::{Field, FIELDS};
use crate::message::{read, Message};
use crate::program::messages;
use crate::refusal::Refusal;

/// For each slot the number, from 1, of the message that it holds after all messages of an
/// input were posted to a fresh draft; 0 if none names its field.
///
/// "Each slot ends with the revision, party and text of the readable message for its field
/// that is greatest by revision, then party, the first in the list among equals". The
/// input is cut as the program's: "messages end to end", and "after a 2 it stops reading".
#[must_use]
pub fn origins(input: &[u8]) -> [u64; FIELDS] {
    let mut list: Vec<(u64, Message<'_>)> = Vec::new();
    for (number, message) in (1..).zip(messages(input)) {
        match read(message) {
            Ok(message) => list.push((number, message)),
            Err(Refusal::Length) => break,
            Err(_) => {}
        }
    }
    Field::ALL.map(|field| {
        list.iter()
            .filter(|(_, message)| message.field == field.number())
            .min_by_key(|(_, message)| Reverse((message.revision, message.party)))
            .map_or(0, |&(number, _)| number)
    })
}

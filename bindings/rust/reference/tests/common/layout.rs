//! The bytes of drafts and messages, laid out from document 01 and R-8.

use cases::{Text, Texts, FIELDS};
use reference::{DRAFT_SIZE, SLOT_SIZE};

/// "1 client or 2 adviser".
pub const CLIENT: u8 = 1;
pub const ADVISER: u8 = 2;

/// The places in a slot: revision, "a party byte after its revision", text length.
pub const PARTY_PLACE: usize = 4;
pub const LENGTH_PLACE: usize = PARTY_PLACE + 1;

/// The bytes ahead of the text in a message of version 1, L and "L - 6".
pub const HEAD_1: usize = 2 + 6;

/// "Version 2 has a party byte after the version".
pub const HEAD_2: usize = HEAD_1 + 1;

pub type Draft = [u8; DRAFT_SIZE];

/// A slot with this revision, party and text.
pub fn slot(revision: u32, party: u8, text: Text) -> [u8; SLOT_SIZE] {
    let mut bytes = [0; SLOT_SIZE];
    bytes[..PARTY_PLACE].copy_from_slice(&revision.to_be_bytes());
    bytes[PARTY_PLACE] = party;
    bytes[LENGTH_PLACE..].copy_from_slice(&text.slot());
    bytes
}

/// A draft of these texts, the adviser's, with a revision for each.
pub fn draft_of(texts: &Texts, mut revision: impl FnMut(Text) -> u32) -> Draft {
    let mut draft = [0; DRAFT_SIZE];
    for (bytes, field) in draft.chunks_mut(SLOT_SIZE).zip(FIELDS) {
        let text = texts.get(field);
        let revision = revision(text);
        let party = if revision == 0 { 0 } else { ADVISER };
        bytes.copy_from_slice(&slot(revision, party, text));
    }
    draft
}

/// A message of version 1.
pub fn message_1(field: u8, revision: u32, text: &[u8]) -> Vec<u8> {
    let length = u8::try_from(6 + text.len()).unwrap();
    let revision = revision.to_be_bytes();
    [&[0, length, 1, field], &revision[..], text].concat()
}

/// A message of version 2.
pub fn message_2(party: u8, field: u8, revision: u32, text: &[u8]) -> Vec<u8> {
    let length = u8::try_from(7 + text.len()).unwrap();
    let revision = revision.to_be_bytes();
    [&[0, length, 2, party, field], &revision[..], text].concat()
}

/// A readable message: version, party, field, revision, text.
pub type Reading<'a> = (u8, u8, u8, u32, &'a [u8]);

/// The draft after a list of readable messages: "each slot ends with the revision,
/// party and text of the readable message for its field that is greatest by
/// revision, then party, the first in the list among equals"; "it is all zero if
/// none names the field".
pub fn draft_after(list: &[Reading<'_>]) -> Draft {
    let mut draft = [0; DRAFT_SIZE];
    for (bytes, field) in draft.chunks_mut(SLOT_SIZE).zip(FIELDS) {
        let named = || list.iter().filter(|reading| reading.2 == field);
        let Some(greatest) = named().map(|reading| (reading.3, reading.1)).max() else {
            continue;
        };
        let first = named().find(|reading| (reading.3, reading.1) == greatest);
        let &(_, party, _, revision, text) = first.expect("it is among them");
        bytes.copy_from_slice(&slot(revision, party, Text::new(text)));
    }
    draft
}

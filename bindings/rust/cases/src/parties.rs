//! The two parties of R-8, in messages and in the slots of a draft.

use crate::random::Random;
use crate::texts::{message, slot_of, Draft, Text, FIELDS};

/// The client's byte.
pub const CLIENT: u8 = 1;

/// The adviser's byte.
pub const ADVISER: u8 = 2;

/// Both, the one that stands over the other at equal revisions last.
pub const PARTIES: [u8; 2] = [CLIENT, ADVISER];

/// The size of a draft: fifteen slots.
pub const DRAFT_SIZE: usize = 465;

/// The size of a draft's slot: revision (4), party (1), text length (1), text (25).
pub const DRAFT_SLOT_SIZE: usize = 31;

/// The place of the party in a draft's slot.
pub const PARTY_PLACE: usize = 4;

/// The place of the text's length in a draft's slot.
pub const LENGTH_PLACE: usize = 5;

/// What stands before the text of a message of version 1: L (2), version, field,
/// revision (4).
pub const HEAD_SIZE_1: usize = 8;

/// What stands before the text of a message of version 2, which has the party after the
/// version.
pub const HEAD_SIZE_2: usize = 9;

/// The party byte of a slot that the adviser gave this revision.
#[must_use]
pub const fn advised(revision: u32) -> u8 {
    match revision {
        0 => 0,
        _ => ADVISER,
    }
}

/// A slot's bytes: any revision, party and text of up to 25 bytes.
#[must_use]
pub fn draft_slot(revision: u32, party: u8, text: &Text) -> [u8; DRAFT_SLOT_SIZE] {
    let mut slot = [0; DRAFT_SLOT_SIZE];
    slot[..PARTY_PLACE].copy_from_slice(&revision.to_be_bytes());
    slot[PARTY_PLACE] = party;
    slot[LENGTH_PLACE..].copy_from_slice(&text.slot());
    slot
}

/// The bytes of a field's slot in a draft of the right size.
pub fn slot_mut(draft: &mut [u8], field: u8) -> &mut [u8] {
    &mut draft[DRAFT_SLOT_SIZE * slot_of(field)..][..DRAFT_SLOT_SIZE]
}

/// Puts a revision, party and text into a field's slot of a draft of the right size.
pub fn set_slot(draft: &mut [u8], field: u8, revision: u32, party: u8, text: &[u8]) {
    let slot = draft_slot(revision, party, &Text::new(text));
    slot_mut(draft, field).copy_from_slice(&slot);
}

/// The draft with either party wherever it has one.
#[must_use]
pub fn of_both_parties(random: &mut Random, mut draft: Draft) -> Draft {
    for slot in draft.chunks_exact_mut(DRAFT_SLOT_SIZE) {
        if slot[PARTY_PLACE] != 0 {
            slot[PARTY_PLACE] = random.pick(&PARTIES);
        }
    }
    draft
}

/// The bytes of a message of version 2; any party, field, revision and length of text.
#[must_use]
pub fn message_2(party: u8, field: u8, revision: u32, text: &[u8]) -> Vec<u8> {
    let mut bytes = Vec::with_capacity(HEAD_SIZE_2 + text.len());
    bytes.extend(((HEAD_SIZE_2 - 2 + text.len()) as u16).to_be_bytes());
    bytes.extend([2, party, field]);
    bytes.extend(revision.to_be_bytes());
    bytes.extend(text);
    bytes
}

/// A message of a party, in any version that can have it.
pub fn message_of(
    random: &mut Random,
    party: u8,
    field: u8,
    revision: u32,
    text: &[u8],
) -> Vec<u8> {
    match party == ADVISER && random.percent(50) {
        true => message(field, revision, text),
        false => message_2(party, field, revision, text),
    }
}

/// A message of any party and version.
pub fn message_of_any(random: &mut Random, field: u8, revision: u32, text: &[u8]) -> Vec<u8> {
    let party = random.pick(&PARTIES);
    message_of(random, party, field, revision, text)
}

/// A message any of whose parts may be wrong, several of them at once.
pub fn message_of_wrong_parts(random: &mut Random) -> Vec<u8> {
    let any = random.byte();
    let version = random.pick(&[1, 1, 2, 2, 2, 2, 0, 3, 255, any]);
    let known = random.pick(&PARTIES);
    let party = wrong_or(random, &[0, 3, 255, any], known);
    let listed = random.pick(&FIELDS);
    let field = wrong_or(random, &[0, 1, 2, 16, 110, any], listed);
    let revision = random.pick(&[0, 1, 2, u32::MAX]);
    let length = random.pick(&[0, 0, 1, 24, 25, 25, 26, 27]);
    let text = [b'7'; 27];
    let mut bytes = match version {
        1 => message(field, revision, &text[..length]),
        _ => message_2(party, field, revision, &text[..length]),
    };
    bytes[2] = version;
    if random.percent(20) {
        let rest = random.pick(&[0, 4, 5, 6, 6, 7, 31, 32, 33]);
        bytes.resize(2 + rest, any);
        bytes[1] = rest as u8;
    }
    if random.percent(10) {
        bytes[1] = bytes[1].wrapping_add(random.pick(&[1, 255]));
    }
    bytes
}

/// The right one, or one of these.
fn wrong_or(random: &mut Random, wrong: &[u8], right: u8) -> u8 {
    match random.percent(40) {
        true => random.pick(wrong),
        false => right,
    }
}

/// What a readable message says.
#[derive(Clone, Copy, Debug, PartialEq, Eq)]
pub struct Given<'a> {
    /// The field's number.
    pub field: u8,
    /// The revision.
    pub revision: u32,
    /// Who wrote it.
    pub party: u8,
    /// The text.
    pub text: &'a [u8],
}

/// The draft after a list of postings, as R-8 says it, from the readable messages of the
/// list: a slot holds revision, party and text of the one for its field that is greatest
/// by revision, then party, the first in the list among equals.
#[must_use]
pub fn draft_after(readable: &[Given<'_>]) -> Draft {
    let mut draft = [0; DRAFT_SIZE];
    for field in FIELDS {
        let named = readable.iter().filter(|given| given.field == field);
        let greatest = named.clone().map(|given| (given.revision, given.party));
        let greatest = greatest.max();
        let mut equals = named.filter(|given| Some((given.revision, given.party)) == greatest);
        if let Some(held) = equals.next() {
            set_slot(&mut draft, field, held.revision, held.party, held.text);
        }
    }
    draft
}

#[cfg(test)]
mod tests {
    use super::*;

    #[test]
    fn messages_of_both_versions() {
        let one = b"\x00\x08\x01\x6C\x00\x00\x01\x0217";
        let two = b"\x00\x09\x02\x01\x6C\x00\x00\x01\x0217";
        assert_eq!(message(108, 258, b"17"), one);
        assert_eq!(message_2(CLIENT, 108, 258, b"17"), two);
        assert_eq!((one.len(), two.len()), (HEAD_SIZE_1 + 2, HEAD_SIZE_2 + 2));
    }

    #[test]
    fn a_slot_of_a_draft() {
        assert_eq!(DRAFT_SIZE, DRAFT_SLOT_SIZE * FIELDS.len());
        let mut draft = [0; DRAFT_SIZE];
        set_slot(&mut draft, 15, 258, CLIENT, b"40");
        assert_eq!(draft[31..][..9], [0, 0, 1, 2, 1, 2, b'4', b'0', 0]);
        assert!(draft[..31]
            .iter()
            .chain(&draft[39..])
            .all(|&byte| byte == 0));
        assert_eq!((advised(0), advised(1)), (0, ADVISER));
    }

    #[test]
    fn the_greatest_by_revision_then_party() {
        let given = |revision, party, text| Given {
            field: 108,
            revision,
            party,
            text,
        };
        let (one, two, three) = (&b"1"[..], &b"2"[..], &b"3"[..]);
        let slot =
            |list: &[Given<'_>]| draft_after(list)[DRAFT_SLOT_SIZE * slot_of(108)..][3..7].to_vec();
        let client = given(2, CLIENT, one);
        let adviser = given(2, ADVISER, two);
        assert_eq!(slot(&[]), [0; 4]);
        assert_eq!(slot(&[client, adviser]), [2, ADVISER, 1, b'2']);
        assert_eq!(slot(&[adviser, client]), [2, ADVISER, 1, b'2']);
        let higher = given(3, CLIENT, three);
        assert_eq!(slot(&[higher, adviser]), [3, CLIENT, 1, b'3']);
        let clash = given(2, ADVISER, three);
        assert_eq!(slot(&[client, clash, adviser]), [2, ADVISER, 1, b'3']);
    }
}

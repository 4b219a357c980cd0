//! What the planted differences of R-8 do to messages and drafts.

use std::cmp::Ordering;

use cases::{message, set_slot, slot_of};
use cases::{ADVISER, CLIENT, DRAFT_SIZE, DRAFT_SLOT_SIZE, FIELDS, HEAD_SIZE_1, HEAD_SIZE_2};
use cases::{LENGTH_PLACE, PARTIES, PARTY_PLACE};
use kieselbrot::{Message, Party, Posted, Refusal, Version};

use crate::library::{Library, Reference};
use crate::parties::{mended, party_in};
use crate::planted::Planted;
use crate::taken::{revision_in, slots};

/// Whether the revision of a message of version 1 or 2 is 0.
pub fn revision_zero(message: &[u8]) -> bool {
    let place = match message.get(2) {
        Some(2) => HEAD_SIZE_2 - 4,
        _ => HEAD_SIZE_1 - 4,
    };
    message.get(place..place + 4) == Some(&[0; 4])
}

/// Puts the client for the party into the slots of a set.
pub fn as_the_clients(draft: &mut [u8], set: u16) {
    for slot in slots(set) {
        draft[DRAFT_SLOT_SIZE * slot + PARTY_PLACE] = CLIENT;
    }
}

/// The message with another party, for one of version 2.
fn with_party(message: &[u8], party: u8) -> Vec<u8> {
    let mut other = message.to_vec();
    other[3] = party;
    other
}

impl Planted {
    /// What a changed reading says of a message, where this is right.
    pub fn changed_reading<'a>(
        self,
        message: &'a [u8],
        right: Result<Message<'a>, Refusal>,
    ) -> Result<Message<'a>, Refusal> {
        match (self, right) {
            (Self::Version1AsClient, Ok(read)) if read.version == Version::ONE => Ok(Message {
                party: Party::CLIENT,
                ..read
            }),
            (Self::Party3, Err(Refusal::UnknownParty)) if message[3] == 3 => Reference
                .read(&with_party(message, ADVISER))
                .map(|read| Message {
                    text: &message[HEAD_SIZE_2..],
                    ..read
                }),
            (Self::PartyAfterField, Err(Refusal::UnknownParty))
                if !FIELDS.contains(&message[HEAD_SIZE_2 - 5]) =>
            {
                Err(Refusal::UnknownField)
            }
            (Self::EarlySecond2, Err(Refusal::UnknownVersion)) if matches!(message[1], 6 | 32) => {
                Err(Refusal::Length)
            }
            (Self::LateSecond2, Err(Refusal::Length)) => late_length(message),
            (Self::Version2L6, Err(Refusal::Length)) if message.starts_with(&[0, 6, 2]) => {
                let longer = [&[0, 7], message.get(2..).unwrap_or_default(), &[0]].concat();
                Reference.read(&longer).map(|read| Message {
                    text: &message[message.len()..],
                    ..read
                })
            }
            _ => right,
        }
    }

    /// Writes a message, changed.
    pub fn changed_writing(
        self,
        message: &Message<'_>,
        buffer: &mut [u8],
    ) -> Result<usize, Refusal> {
        let answer = Reference.write(message, buffer);
        let known = PARTIES.contains(&message.party.0);
        match (self, answer) {
            (Self::ClientInVersion1, Err(Refusal::UnknownParty)) if known => {
                let party = Party::ADVISER;
                Reference.write(&Message { party, ..*message }, buffer)
            }
            (Self::PartyBeforeVersion, Err(Refusal::UnknownVersion)) if !known => {
                Err(Refusal::UnknownParty)
            }
            _ => answer,
        }
    }

    /// The draft that a changed library sees in place of this one.
    pub fn seen_draft(self, draft: &[u8]) -> Vec<u8> {
        let through = |slot: &usize| match (revision_in(draft, *slot), party_in(draft, *slot)) {
            (1.., 0) => self == Self::NoParty,
            (0, 1..) => self == Self::PartyOfNothing,
            _ => false,
        };
        match draft.len() {
            DRAFT_SIZE => mended(draft, (0..FIELDS.len()).filter(through)),
            _ => draft.to_vec(),
        }
    }

    /// Posts a message, changed where both parties meet.
    pub fn changed_posting(self, draft: &mut [u8], message: &[u8]) -> Result<Posted, Refusal> {
        let before = draft.to_vec();
        let answer = Reference.post(draft, message);
        let (Ok(_), Ok(read)) = (answer, Reference.read(message)) else {
            return answer;
        };
        let slot = slot_of(read.field);
        if self == Self::StoredAsAdviser && answer == Ok(Posted::Newer) {
            draft[DRAFT_SLOT_SIZE * slot + PARTY_PLACE] = ADVISER;
            return answer;
        }
        let (held, party) = (revision_in(&before, slot), party_in(&before, slot));
        if held == 0 || party == read.party.0 {
            return answer;
        }
        let revision = read.revision.cmp(&held);
        let changed = self.changed_standing(revision, read.party, same_text(&before, slot, &read));
        let Some(changed) = changed else {
            return answer;
        };
        draft.copy_from_slice(&before);
        if changed == Ok(Posted::Newer) {
            set_slot(draft, read.field, read.revision, read.party.0, read.text);
        }
        changed
    }

    /// What a message of this party answers where the slot is the other's, if that is
    /// changed.
    fn changed_standing(
        self,
        revision: Ordering,
        party: Party,
        same_text: bool,
    ) -> Option<Result<Posted, Refusal>> {
        let of_client = party == Party::CLIENT;
        let stands = |newer| match newer {
            true => Posted::Newer,
            false => Posted::Older,
        };
        Some(match (self, revision) {
            (Self::ClientWins, Ordering::Equal) => Ok(stands(of_client)),
            (Self::FirstArrival, Ordering::Equal) => Ok(Posted::Older),
            (Self::LaterParty, Ordering::Equal) => Ok(Posted::Newer),
            (Self::PartylessClash, Ordering::Equal) if !same_text => Err(Refusal::Clash),
            (Self::PartylessSame, Ordering::Equal) if same_text => Ok(Posted::Same),
            (Self::PartyBeforeRevision, _) => Ok(stands(!of_client)),
            _ => return None,
        })
    }
}

/// Whether a message has the text of a slot.
fn same_text(draft: &[u8], slot: usize, message: &Message<'_>) -> bool {
    let held = &draft[DRAFT_SLOT_SIZE * slot + LENGTH_PLACE..];
    message.text == &held[1..][..usize::from(held[0])]
}

/// What is refused of a message besides an L that its version does not allow.
fn late_length<'a>(bytes: &[u8]) -> Result<Message<'a>, Refusal> {
    let later = match bytes {
        [0, 32, 1, field, r0, r1, r2, r3, ..] => {
            let revision = u32::from_be_bytes([*r0, *r1, *r2, *r3]);
            Reference.read(&message(*field, revision, b"")).err()
        }
        [0, 6, 2, party, ..] if !PARTIES.contains(party) => Some(Refusal::UnknownParty),
        _ => None,
    };
    let whole = bytes.len() == 2 + usize::from(bytes.get(1).copied().unwrap_or_default());
    match later.filter(|_| whole) {
        Some(refusal) => Err(refusal),
        None => Err(Refusal::Length),
    }
}

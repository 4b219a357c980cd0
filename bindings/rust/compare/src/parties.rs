//! What the versions of messages and the two parties reached.

use std::cmp::Ordering;
use std::fmt;

use cases::{slot_of, FIELDS, HEAD_SIZE_1, HEAD_SIZE_2};
use cases::{Given, ADVISER, CLIENT, DRAFT_SIZE, DRAFT_SLOT_SIZE, PARTIES, PARTY_PLACE};
use kieselbrot::{Message, Party, Refusal, Version};

use crate::library::{Library, Reference};
use crate::taken::{revision_in, slots};

/// What was reached.
#[derive(Clone, Copy, Debug, PartialEq, Eq, PartialOrd, Ord)]
pub enum Partied {
    /// A message of this version and party is read.
    Read(u8, u8),
    /// A message of this version and party is written.
    Written(u8, u8),
    /// A message of this version is read with this L, the least or the greatest.
    Length(u8, usize),
    /// Refused with 2 after 3: this version does not allow this L.
    NotAllowed(u8, usize),
    /// Refused with 3, with an L that not both versions allow.
    Unknown(usize),
    /// Refused for the first, though the second is wrong, too.
    Order(Call, Wrong, Wrong),
    /// Writing is refused with 13: an unknown party in this version.
    NoParty(u8),
    /// Writing is refused with 13: the client in version 1.
    ClientIn1,
    /// A readable message meets a slot.
    Met(Met),
    /// Refused with 1 by this function for this alone.
    Malformed(&'static str, Fault),
    /// A value is taken up where this party blanked the slot, or none gave it.
    TakenUp(Option<u8>),
    /// A list of postings ends with this party in a slot.
    Ends(u8),
    /// Both parties gave a field its greatest revision; this one came first.
    Contest(u8, Text),
    /// Only this party gave a field, with messages of the other in the list.
    Alone(u8),
}

/// Which call is refused.
#[derive(Clone, Copy, Debug, PartialEq, Eq, PartialOrd, Ord)]
pub enum Call {
    /// Reading.
    Read,
    /// Writing.
    Write,
}

/// What is wrong with a message, in the order of testing.
#[derive(Clone, Copy, Debug, PartialEq, Eq, PartialOrd, Ord)]
pub enum Wrong {
    /// 2: under 2 bytes, L not the rest or outside 6 to 32; the text to write is over 25.
    Length,
    /// 3: the version.
    Version,
    /// 2: an L that the version does not allow.
    NotAllowed,
    /// 13: the party.
    Party,
    /// 4: the field.
    Field,
    /// 5: the revision.
    Revision,
    /// 7: the buffer.
    Output,
}

const READ_WRONG: [Wrong; 6] = [
    Wrong::Length,
    Wrong::Version,
    Wrong::NotAllowed,
    Wrong::Party,
    Wrong::Field,
    Wrong::Revision,
];

const WRITE_WRONG: [Wrong; 6] = [
    Wrong::Length,
    Wrong::Version,
    Wrong::Party,
    Wrong::Field,
    Wrong::Revision,
    Wrong::Output,
];

/// What a message and the slot that it meets are to each other.
#[derive(Clone, Copy, Debug, PartialEq, Eq, PartialOrd, Ord)]
pub struct Met {
    /// The slot's party, if it was ever given.
    stored: Option<u8>,
    /// The message's version and party.
    sent: (u8, u8),
    /// Its revision against the slot's.
    revision: Ordering,
    /// Its text against the slot's.
    text: Text,
}

/// One text against another.
#[derive(Clone, Copy, Debug, PartialEq, Eq, PartialOrd, Ord)]
pub enum Text {
    /// The same.
    Same,
    /// Another.
    Other,
}

const TEXTS: [Text; 2] = [Text::Same, Text::Other];

fn against(text: &[u8], other: &[u8]) -> Text {
    match text == other {
        true => Text::Same,
        false => Text::Other,
    }
}

/// The versions with the parties that they carry.
const SENT: [(u8, u8); 3] = [(1, ADVISER), (2, CLIENT), (2, ADVISER)];

/// What is wrong with the party of a slot.
#[derive(Clone, Copy, Debug, PartialEq, Eq, PartialOrd, Ord)]
pub enum Fault {
    /// A revision without a party.
    NoParty,
    /// A revision of an unknown party.
    Unknown,
    /// The client without a revision.
    ClientOfNothing,
    /// The adviser without a revision.
    AdviserOfNothing,
    /// An unknown party without a revision.
    UnknownOfNothing,
}

const FAULTS: [Fault; 5] = [
    Fault::NoParty,
    Fault::Unknown,
    Fault::ClientOfNothing,
    Fault::AdviserOfNothing,
    Fault::UnknownOfNothing,
];

/// The functions that read a draft.
const OF_DRAFTS: [&str; 4] = ["post", "copy", "complete", "take_up"];

/// Where a party byte stands that is refused, by 13 or 1.
#[derive(Clone, Copy, Debug, PartialEq, Eq, PartialOrd, Ord)]
pub enum Holder {
    /// In a message of version 2.
    Message,
    /// In a slot with a revision.
    Slot,
    /// In a slot that was never given.
    NeverGiven,
}

impl Holder {
    /// All of them, and how many bytes each refuses.
    pub const ALL: [(Self, u64); 3] = [
        (Self::Message, 254),
        (Self::Slot, 254),
        (Self::NeverGiven, 255),
    ];
}

/// All that must be reached.
pub fn all() -> impl Iterator<Item = Partied> {
    let sent = |what: fn(u8, u8) -> Partied| SENT.map(|(version, party)| what(version, party));
    let lengths = [(1, 6), (1, 31), (2, 7), (2, 32)].map(|(v, l)| Partied::Length(v, l));
    let not_allowed = [(1, 32), (2, 6)].map(|(v, l)| Partied::NotAllowed(v, l));
    let malformed = OF_DRAFTS
        .into_iter()
        .flat_map(|function| FAULTS.map(|fault| Partied::Malformed(function, fault)));
    let contests = PARTIES
        .into_iter()
        .flat_map(|first| TEXTS.map(|text| Partied::Contest(first, text)));
    let of_parties = PARTIES
        .into_iter()
        .flat_map(|party| [Partied::Ends(party), Partied::Alone(party)]);
    sent(Partied::Read)
        .into_iter()
        .chain(sent(Partied::Written))
        .chain(lengths)
        .chain(not_allowed)
        .chain([6, 32].map(Partied::Unknown))
        .chain(orders())
        .chain([1, 2].map(Partied::NoParty))
        .chain([Partied::ClientIn1])
        .chain(meetings())
        .chain(malformed)
        .chain([None, Some(CLIENT), Some(ADVISER)].map(Partied::TakenUp))
        .chain(of_parties)
        .chain(contests)
}

/// Every two that can be wrong at once, in the order of testing.
fn orders() -> impl Iterator<Item = Partied> {
    let calls = [(Call::Read, READ_WRONG), (Call::Write, WRITE_WRONG)];
    calls.into_iter().flat_map(|(call, wrong)| {
        let pairs = wrong
            .into_iter()
            .enumerate()
            .flat_map(move |(place, first)| {
                let later = wrong.into_iter().skip(place + 1);
                later.map(move |second| (first, second))
            });
        // Where L or the version is wrong, no version disallows it.
        pairs
            .filter(|&(_, second)| second != Wrong::NotAllowed)
            .map(move |(first, second)| Partied::Order(call, first, second))
    })
}

/// Every message against every slot.
fn meetings() -> impl Iterator<Item = Partied> {
    let never = SENT.map(|sent| (None, sent, Ordering::Greater, Text::Other));
    let stored = PARTIES.into_iter().flat_map(|stored| {
        SENT.into_iter().flat_map(move |sent| {
            let revisions = [Ordering::Less, Ordering::Equal, Ordering::Greater];
            revisions
                .into_iter()
                .flat_map(move |revision| TEXTS.map(|text| (Some(stored), sent, revision, text)))
        })
    });
    never.into_iter().chain(stored).map(|met| {
        let (stored, sent, revision, text) = met;
        Partied::Met(Met {
            stored,
            sent,
            revision,
            text,
        })
    })
}

/// A party by its name.
const fn name(party: u8) -> &'static str {
    match party {
        CLIENT => "client",
        _ => "adviser",
    }
}

impl fmt::Display for Partied {
    fn fmt(&self, f: &mut fmt::Formatter<'_>) -> fmt::Result {
        match self {
            Self::Read(version, party) => write!(f, "read {version} of the {}", name(*party)),
            Self::Written(version, party) => {
                write!(f, "written {version} of the {}", name(*party))
            }
            Self::Length(version, length) => write!(f, "version {version} with L {length}"),
            Self::NotAllowed(version, length) => {
                write!(f, "2, version {version} with L {length}")
            }
            Self::Unknown(length) => write!(f, "3 with L {length}"),
            Self::Order(call, first, second) => {
                write!(f, "{call:?}, {first:?} ahead of {second:?}")
            }
            Self::NoParty(version) => write!(f, "13 writing version {version}"),
            Self::ClientIn1 => write!(f, "13 writing version 1 of the client"),
            Self::Met(met) => write!(f, "{met}"),
            Self::Malformed(function, fault) => write!(f, "{function} 1, {fault:?}"),
            Self::TakenUp(None) => write!(f, "taken up, never given"),
            Self::TakenUp(Some(party)) => write!(f, "taken up, blanked by the {}", name(*party)),
            Self::Ends(party) => write!(f, "a list ends with the {}", name(*party)),
            Self::Contest(first, text) => {
                write!(f, "equal revisions, {} first, {text:?}", name(*first))
            }
            Self::Alone(party) => write!(f, "the {} alone", name(*party)),
        }
    }
}

impl fmt::Display for Met {
    fn fmt(&self, f: &mut fmt::Formatter<'_>) -> fmt::Result {
        let (version, party) = self.sent;
        write!(f, "{version} of the {}", name(party))?;
        let Some(stored) = self.stored else {
            return write!(f, " to nothing");
        };
        let (revision, text) = (self.revision, self.text);
        write!(f, " to the {}'s: {revision:?}, {text:?}", name(stored))
    }
}

/// A field's number is listed.
fn is_listed(field: u8) -> bool {
    FIELDS.contains(&field)
}

/// All that is wrong with a message to read, as far as its bytes go; one of an unknown
/// version as if it had a party.
fn wrong_to_read(message: &[u8]) -> Vec<Wrong> {
    let length = message.first_chunk().copied().map(u16::from_be_bytes);
    let length = length.map(usize::from);
    let of_length = length.is_some_and(|length| length + 2 == message.len());
    let known = of_length && length.is_some_and(|length| (6..=32).contains(&length));
    let version = message.get(2).copied();
    let head_size = match version {
        Some(1) => HEAD_SIZE_1,
        _ => HEAD_SIZE_2,
    };
    let allowed = head_size - 2..=head_size + 23;
    let numbered = matches!(version, Some(1 | 2));
    let not_allowed = numbered && length.is_some_and(|length| !allowed.contains(&length));
    let party = message.get(3).filter(|_| version != Some(1));
    let field = message.get(head_size - 5);
    let revision = message.get(head_size - 4..head_size);
    let wrong = [
        (Wrong::Length, !known),
        (Wrong::Version, version.is_some() && !numbered),
        (Wrong::NotAllowed, known && not_allowed),
        (
            Wrong::Party,
            party.is_some_and(|party| !PARTIES.contains(party)),
        ),
        (Wrong::Field, field.is_some_and(|&field| !is_listed(field))),
        (Wrong::Revision, revision == Some(&[0; 4])),
    ];
    there(&wrong)
}

/// All that is wrong with a message to write into a buffer of this size.
fn wrong_to_write(message: &Message<'_>, size: usize) -> Vec<Wrong> {
    let (version, party) = (message.version, message.party);
    let head_size = match version {
        Version::ONE => HEAD_SIZE_1,
        _ => HEAD_SIZE_2,
    };
    let client_in_1 = (version, party) == (Version::ONE, Party::CLIENT);
    let wrong = [
        (Wrong::Length, message.text.len() > 25),
        (Wrong::Version, !matches!(version.0, 1 | 2)),
        (Wrong::Party, client_in_1 || !PARTIES.contains(&party.0)),
        (Wrong::Field, !is_listed(message.field)),
        (Wrong::Revision, message.revision == 0),
        (Wrong::Output, size < head_size + message.text.len()),
    ];
    there(&wrong)
}

fn there(wrong: &[(Wrong, bool)]) -> Vec<Wrong> {
    let there = wrong.iter().filter(|(_, there)| *there);
    there.map(|(wrong, _)| *wrong).collect()
}

/// The first of these ahead of each other one.
fn ahead(call: Call, wrong: &[Wrong]) -> Vec<Partied> {
    let Some((&first, later)) = wrong.split_first() else {
        return vec![];
    };
    let order = |&second: &Wrong| Partied::Order(call, first, second);
    later.iter().map(order).collect()
}

/// What reading reached.
pub fn read(message: &[u8], answer: Result<Message<'_>, Refusal>) -> Vec<Partied> {
    let length = message.len().wrapping_sub(2);
    let mut reached = ahead(Call::Read, &wrong_to_read(message));
    match answer {
        Ok(read) => {
            let version = read.version.0;
            reached.push(Partied::Read(version, read.party.0));
            reached.push(Partied::Length(version, length));
        }
        Err(Refusal::Length) if wrong_to_read(message).first() == Some(&Wrong::NotAllowed) => {
            reached.push(Partied::NotAllowed(message[2], length));
        }
        Err(Refusal::UnknownVersion) => reached.push(Partied::Unknown(length)),
        _ => {}
    }
    reached
}

/// What writing reached.
pub fn write(message: &Message<'_>, size: usize, answer: Result<usize, Refusal>) -> Vec<Partied> {
    let (version, party) = (message.version.0, message.party.0);
    let mut reached = ahead(Call::Write, &wrong_to_write(message, size));
    reached.extend(match answer {
        Ok(_) => Some(Partied::Written(version, party)),
        Err(Refusal::UnknownParty) if party == CLIENT => Some(Partied::ClientIn1),
        Err(Refusal::UnknownParty) => Some(Partied::NoParty(version)),
        Err(_) => None,
    });
    reached
}

/// What posting reached of the draft before it.
pub fn post(draft: &[u8], message: &[u8]) -> Option<Partied> {
    Reference.copy(draft, &mut [0; 390]).ok()?;
    let message = Reference.read(message).ok()?;
    let slot = slot_of(message.field);
    let held = revision_in(draft, slot);
    let sent = (message.version.0, message.party.0);
    let (stored, text) = match held {
        0 => (None, Text::Other),
        _ => {
            let text = against(message.text, text_in_draft(draft, slot));
            (Some(party_in(draft, slot)), text)
        }
    };
    Some(Partied::Met(Met {
        stored,
        sent,
        revision: message.revision.cmp(&held),
        text,
    }))
}

/// What taking up reached of the draft before it.
pub fn taken_up(draft: &[u8], set: u16, answer: Result<(), Refusal>) -> Vec<Partied> {
    let blanked = |slot| match party_in(draft, slot) {
        0 => Partied::TakenUp(None),
        party => Partied::TakenUp(Some(party)),
    };
    match answer {
        Ok(()) => slots(set).map(blanked).collect(),
        Err(_) => vec![],
    }
}

/// The party in a slot of a draft.
pub fn party_in(draft: &[u8], slot: usize) -> u8 {
    draft[DRAFT_SLOT_SIZE * slot + PARTY_PLACE]
}

/// The text in a slot of a well-formed draft.
fn text_in_draft(draft: &[u8], slot: usize) -> &[u8] {
    let [length, text @ ..] = &draft[DRAFT_SLOT_SIZE * slot + PARTY_PLACE + 1..] else {
        return &[];
    };
    &text[..usize::from(*length)]
}

/// What is wrong with the parties of a draft of the right size, and the bytes that are.
fn faults(draft: &[u8]) -> Vec<(usize, Fault)> {
    let fault = |slot| {
        let fault = match (revision_in(draft, slot), party_in(draft, slot)) {
            (0, 0) | (1.., CLIENT | ADVISER) => return None,
            (0, CLIENT) => Fault::ClientOfNothing,
            (0, ADVISER) => Fault::AdviserOfNothing,
            (0, _) => Fault::UnknownOfNothing,
            (_, 0) => Fault::NoParty,
            _ => Fault::Unknown,
        };
        Some((slot, fault))
    };
    (0..FIELDS.len()).filter_map(fault).collect()
}

/// The draft with a right party in these slots.
pub fn mended(draft: &[u8], slots: impl IntoIterator<Item = usize>) -> Vec<u8> {
    let mut mended = draft.to_vec();
    for slot in slots {
        let party = cases::advised(revision_in(draft, slot));
        mended[DRAFT_SLOT_SIZE * slot + PARTY_PLACE] = party;
    }
    mended
}

/// The slots whose party alone makes a draft malformed, and what is wrong with it.
pub fn malformed(draft: &[u8]) -> Vec<(usize, Fault)> {
    if draft.len() != DRAFT_SIZE {
        return vec![];
    }
    let faults = faults(draft);
    let mended = mended(draft, faults.iter().map(|&(slot, _)| slot));
    match Reference.copy(&mended, &mut [0; 390]) {
        Ok(()) => faults,
        Err(_) => vec![],
    }
}

/// Where a fault's byte stands.
pub const fn holder(fault: Fault) -> Holder {
    match fault {
        Fault::NoParty | Fault::Unknown => Holder::Slot,
        _ => Holder::NeverGiven,
    }
}

/// What a list of readable messages reached, by the draft that it ended in.
pub fn list(readable: &[Given<'_>], draft: &[u8]) -> Vec<Partied> {
    let mut reached = Vec::new();
    for (slot, field) in FIELDS.into_iter().enumerate() {
        let greatest = revision_in(draft, slot);
        if greatest == 0 {
            continue;
        }
        reached.push(Partied::Ends(party_in(draft, slot)));
        let of_field = |given: &&Given<'_>| given.field == field && given.revision == greatest;
        let equals: Vec<&Given<'_>> = readable.iter().filter(of_field).collect();
        let [first, ..] = equals[..] else { continue };
        let other = equals.iter().find(|given| given.party != first.party);
        if let Some(other) = other {
            let text = against(first.text, other.text);
            reached.push(Partied::Contest(first.party, text));
        }
    }
    reached
}

#[cfg(test)]
mod tests {
    use super::*;
    use cases::{message, message_2, set_slot, Texts};

    #[test]
    fn orders_of_reading() {
        let reached = |bytes: &[u8]| read(bytes, Reference.read(bytes));
        let order = |first, second| Partied::Order(Call::Read, first, second);
        let client = message_2(CLIENT, 108, 1, b"");
        let expected = [Partied::Read(2, CLIENT), Partied::Length(2, 7)];
        assert_eq!(reached(&client), expected);
        let wrong = message_2(0, 16, 0, b"0");
        let expected = [
            order(Wrong::Party, Wrong::Field),
            order(Wrong::Party, Wrong::Revision),
        ];
        assert_eq!(reached(&wrong), expected);
        let long = message(16, 1, &[b'7'; 26]);
        let expected = [
            order(Wrong::NotAllowed, Wrong::Field),
            Partied::NotAllowed(1, 32),
        ];
        assert_eq!(reached(&long), expected);
        let mut unknown = message(14, 1, b"");
        unknown[2] = 3;
        let expected = [
            order(Wrong::Version, Wrong::Party),
            order(Wrong::Version, Wrong::Field),
            Partied::Unknown(6),
        ];
        assert_eq!(reached(&unknown), expected);
        assert_eq!(reached(&[]), []);
    }

    #[test]
    fn orders_of_writing() {
        let reached = |version, party, field, size: usize| {
            let message = Message {
                version: Version(version),
                party: Party(party),
                field,
                revision: 1,
                text: b"",
            };
            let answer = Reference.write(&message, &mut vec![0; size]);
            write(&message, size, answer)
        };
        let order = |first, second| Partied::Order(Call::Write, first, second);
        assert_eq!(reached(2, CLIENT, 108, 9), [Partied::Written(2, CLIENT)]);
        let expected = [order(Wrong::Party, Wrong::Field), Partied::ClientIn1];
        assert_eq!(reached(1, CLIENT, 9, 8), expected);
        let expected = [order(Wrong::Party, Wrong::Output), Partied::NoParty(2)];
        assert_eq!(reached(2, 3, 108, 8), expected);
    }

    #[test]
    fn messages_and_slots() {
        let mut draft = [0; DRAFT_SIZE];
        let met = |draft: &[u8], message: &[u8]| match post(draft, message) {
            Some(Partied::Met(met)) => met.to_string(),
            other => panic!("{other:?}"),
        };
        let client = message_2(CLIENT, 108, 1, b"17");
        assert_eq!(met(&draft, &client), "2 of the client to nothing");
        set_slot(&mut draft, 108, 1, ADVISER, b"17");
        let expected = "2 of the client to the adviser's: Equal, Same";
        assert_eq!(met(&draft, &client), expected);
        let expected = "1 of the adviser to the adviser's: Greater, Other";
        assert_eq!(met(&draft, &message(108, 2, b"")), expected);
        assert_eq!(post(&draft, &message(16, 2, b"")), None);
        assert_eq!(meetings().count(), 39);
    }

    #[test]
    fn parties_that_malform_a_draft() {
        let mut draft = Texts::s()
            .without(&[105])
            .draft(|text| u32::from(!text.is_empty()));
        assert_eq!(malformed(&draft), []);
        draft[PARTY_PLACE] = 0;
        draft[DRAFT_SLOT_SIZE * 10 + PARTY_PLACE] = 7;
        let expected = [(0, Fault::NoParty), (10, Fault::UnknownOfNothing)];
        assert_eq!(malformed(&draft), expected);
        draft[DRAFT_SIZE - 1] = 1;
        assert_eq!(malformed(&draft), []);
        assert_eq!(malformed(&[0; DRAFT_SIZE - 1]), []);
    }

    #[test]
    fn lists_of_both_parties() {
        let given = |party, text| Given {
            field: 108,
            revision: 1,
            party,
            text,
        };
        let (one, two) = (&b"1"[..], &b"2"[..]);
        let both = [given(CLIENT, one), given(ADVISER, two)];
        let expected = [
            Partied::Ends(ADVISER),
            Partied::Contest(CLIENT, Text::Other),
        ];
        assert_eq!(list(&both, &cases::draft_after(&both)), expected);
        assert_eq!(list(&[], &[0; DRAFT_SIZE]), []);
    }
}

//! Field messages: reading and writing.

use crate::field::Field;
use crate::party::Party;
use crate::refusal::Refusal;
use crate::sheet::TEXT_MAX;

/// The bytes of L before what it counts.
const LENGTH_SIZE: usize = 2;

/// The least L of a version: "L outside 6 to 31 becomes 6 to 32".
const LENGTH_MIN: usize = Version::One.header_size();

/// The greatest L of a version: "L outside 6 to 31 becomes 6 to 32".
const LENGTH_MAX: usize = Version::Two.header_size() + TEXT_MAX;

/// The bytes of the longest message, which is of version 2.
pub const MESSAGE_MAX: usize = LENGTH_SIZE + LENGTH_MAX;

/// A message's version: "3 a version other than 1 or 2".
#[derive(Clone, Copy, Debug, PartialEq, Eq)]
pub(crate) enum Version {
    One = 1,
    Two = 2,
}

impl Version {
    const fn from_number(number: u8) -> Option<Self> {
        Some(match number {
            1 => Self::One,
            2 => Self::Two,
            _ => return None,
        })
    }

    /// The version byte.
    pub(crate) const fn number(self) -> u8 {
        self as u8
    }

    /// The bytes from the version to the revision. Version 1: "the text, L - 6
    /// bytes"; "version 2 has a party byte after the version".
    const fn header_size(self) -> usize {
        match self {
            Self::One => 6,
            Self::Two => 7,
        }
    }

    /// Whether the version allows this L: "6 to 31" in version 1, "L from 7 to 32"
    /// in version 2.
    fn allows(self, length: usize) -> bool {
        (self.header_size()..=self.header_size() + TEXT_MAX).contains(&length)
    }

    /// Whether a message of this version can be the party's: "Version 1 counts as
    /// the adviser".
    fn carries(self, party: Party) -> bool {
        self == Self::Two || party == Party::Adviser
    }
}

/// A message as read: "field, revision and the text, as a part of the caller's
/// message"; "Reading also returns version and party".
#[derive(Clone, Copy, Debug, PartialEq, Eq, Hash)]
pub struct Message<'a> {
    /// The version, 1 or 2.
    pub version: u8,
    /// The party, "1 client or 2 adviser"; 2 in version 1.
    pub party: u8,
    /// The number of a listed field.
    pub field: u8,
    /// The revision, not 0.
    pub revision: u32,
    /// The text, 0 to 25 bytes.
    pub text: &'a [u8],
}

/// A message as read, its version, party and field as such.
pub(crate) struct Parsed<'a> {
    pub(crate) version: Version,
    pub(crate) party: Party,
    pub(crate) field: Field,
    pub(crate) revision: u32,
    pub(crate) text: &'a [u8],
}

/// Reads a message.
///
/// "A message: two bytes L, big-endian, the length of what follows, 6 to 31;
/// version byte 1; field number in one byte; revision in four bytes,
/// big-endian, not 0; the text, L - 6 bytes." "Message version 2 has a party byte
/// after the version, 1 client or 2 adviser, and L from 7 to 32. Version 1 counts
/// as the adviser."
///
/// # Errors
///
/// In this order: [`Refusal::Length`], [`Refusal::Version`], [`Refusal::Length`]
/// for "an L its version doesn't allow", [`Refusal::Party`],
/// [`Refusal::UnknownField`], [`Refusal::RevisionZero`].
pub fn read(message: &[u8]) -> Result<Message<'_>, Refusal> {
    let parsed = parse(message)?;
    Ok(Message {
        version: parsed.version.number(),
        party: parsed.party.number(),
        field: parsed.field.number(),
        revision: parsed.revision,
        text: parsed.text,
    })
}

/// Reads a message as [`read`] does.
pub(crate) fn parse(message: &[u8]) -> Result<Parsed<'_>, Refusal> {
    let (length, body) = message
        .split_first_chunk::<LENGTH_SIZE>()
        .ok_or(Refusal::Length)?;
    let length = usize::from(u16::from_be_bytes(*length));
    if length != body.len() || !(LENGTH_MIN..=LENGTH_MAX).contains(&length) {
        return Err(Refusal::Length);
    }
    let (&version, rest) = body.split_first().ok_or(Refusal::Length)?;
    let version = Version::from_number(version).ok_or(Refusal::Version)?;
    if !version.allows(length) {
        return Err(Refusal::Length);
    }
    let (party, rest) = match version {
        Version::One => (Party::Adviser, rest),
        Version::Two => {
            let (&party, rest) = rest.split_first().ok_or(Refusal::Length)?;
            (Party::from_number(party).ok_or(Refusal::Party)?, rest)
        }
    };
    let (&[field, r0, r1, r2, r3], text) = rest.split_first_chunk().ok_or(Refusal::Length)?;
    let field = Field::from_number(field).ok_or(Refusal::UnknownField)?;
    let revision = u32::from_be_bytes([r0, r1, r2, r3]);
    if revision == 0 {
        return Err(Refusal::RevisionZero);
    }
    Ok(Parsed {
        version,
        party,
        field,
        revision,
        text,
    })
}

/// Writes a message at the start of a buffer.
///
/// "The writer takes field, revision, text and a buffer, writes L + 2 bytes at
/// its start, returns L + 2 and leaves the rest." "Reading also returns version and
/// party, the writer takes both, and messages and their readings still match one to
/// one."
///
/// # Errors
///
/// In this order: [`Refusal::Length`] ("text over 25"), [`Refusal::Version`],
/// [`Refusal::Party`] ("an unknown party, or the client when writing version 1"),
/// [`Refusal::UnknownField`], [`Refusal::RevisionZero`], [`Refusal::Output`]
/// ("a message buffer too short").
pub fn write(
    version: u8,
    party: u8,
    field: u8,
    revision: u32,
    text: &[u8],
    buffer: &mut [u8],
) -> Result<usize, Refusal> {
    if text.len() > TEXT_MAX {
        return Err(Refusal::Length);
    }
    let version = Version::from_number(version).ok_or(Refusal::Version)?;
    let party = Party::from_number(party)
        .filter(|&party| version.carries(party))
        .ok_or(Refusal::Party)?;
    if Field::from_number(field).is_none() {
        return Err(Refusal::UnknownField);
    }
    if revision == 0 {
        return Err(Refusal::RevisionZero);
    }
    let length = version.header_size() + text.len();
    let size = LENGTH_SIZE + length;
    let output = buffer.get_mut(..size).ok_or(Refusal::Output)?;
    let (head, tail) = output.split_at_mut(LENGTH_SIZE + version.header_size());
    let [l0, l1] = (length as u16).to_be_bytes();
    let [r0, r1, r2, r3] = revision.to_be_bytes();
    let (v, p) = (version.number(), party.number());
    match version {
        Version::One => head.copy_from_slice(&[l0, l1, v, field, r0, r1, r2, r3]),
        Version::Two => head.copy_from_slice(&[l0, l1, v, p, field, r0, r1, r2, r3]),
    }
    tail.copy_from_slice(text);
    Ok(size)
}

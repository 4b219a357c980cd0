//! The version of a message, and the party that wrote it.

use crate::{MESSAGE_HEAD_SIZE_1, MESSAGE_HEAD_SIZE_2};

/// A message's version, 1 or 2.
///
/// Any number may be given; [`Refusal::UnknownVersion`](crate::Refusal::UnknownVersion) refuses the
/// others. What was read has one of the two.
#[repr(transparent)]
#[derive(Clone, Copy, Debug, PartialEq, Eq, Hash)]
pub struct Version(pub u8);

impl Version {
    /// Version 1: without a party byte, always the adviser's.
    pub const ONE: Self = Self(1);

    /// Version 2: with a party byte.
    pub const TWO: Self = Self(2);

    /// How many bytes stand before the text, if the version is known.
    pub(crate) const fn head_size(self) -> Option<usize> {
        match self {
            Self::ONE => Some(MESSAGE_HEAD_SIZE_1),
            Self::TWO => Some(MESSAGE_HEAD_SIZE_2),
            _ => None,
        }
    }

    /// Whether a message of this version can be the party's.
    pub(crate) const fn carries(self, party: Party) -> bool {
        matches!(
            (self, party),
            (Self::ONE | Self::TWO, Party::ADVISER) | (Self::TWO, Party::CLIENT)
        )
    }
}

/// The party that wrote a message: the client or the adviser.
///
/// Any number may be given;
/// [`Refusal::UnknownParty`](crate::Refusal::UnknownParty) refuses the others. What was
/// read has one of the two.
#[repr(transparent)]
#[derive(Clone, Copy, Debug, PartialEq, Eq, Hash)]
pub struct Party(pub u8);

impl Party {
    /// The client.
    pub const CLIENT: Self = Self(1);

    /// The adviser, who stands over the client at equal revisions.
    pub const ADVISER: Self = Self(2);
}

//! A draft: what the messages of an order come to.

use std::fmt;
use std::ops::{Deref, DerefMut};

use crate::{complete, copy, post, pretest, slots, take_up, windows1251, write};
use crate::{Broken, Completed, Party, Posted, Refusal, Sheet, Terms, Version};
use crate::{DRAFT_SIZE, DRAFT_SLOT_SIZE, FIELDS, MESSAGE_MAX};

/// How many bytes of a slot have the revision, and the party.
const REVISION_SIZE: usize = 4;
const PARTY_SIZE: usize = 1;

/// What the messages of an order come to, a slot for each field: [`DRAFT_SIZE`] bytes, any of
/// them. It stands where the functions of this crate take a draft's bytes.
///
/// ```
/// use kieselbrot::{Draft, Party, Posted, Refusal};
///
/// # fn main() -> Result<(), Refusal> {
/// let mut draft = Draft::new();
/// assert_eq!(draft.give(Party::CLIENT, 108, 1, b"17")?, Posted::Newer);
/// assert_eq!(draft.give(Party::ADVISER, 108, 1, b"18")?, Posted::Newer);
/// assert_eq!(draft.text(108), b"18");
/// assert_eq!((draft.revision(108), draft.party(108)), (1, Some(Party::ADVISER)));
/// assert_eq!((draft.revision(109), draft.party(109)), (0, None));
/// # Ok(())
/// # }
/// ```
#[repr(transparent)]
#[derive(Clone, Copy, PartialEq, Eq, Hash)]
pub struct Draft([u8; DRAFT_SIZE]);

impl Draft {
    /// The fresh draft.
    #[must_use]
    pub const fn new() -> Self {
        Self([0; DRAFT_SIZE])
    }

    /// The bytes.
    #[must_use]
    pub const fn as_bytes(&self) -> &[u8; DRAFT_SIZE] {
        &self.0
    }

    fn slot(&self, field: u8) -> &[u8] {
        slots::slot(&self.0, DRAFT_SLOT_SIZE, field).unwrap_or_default()
    }

    /// A field's text, in Windows-1251; empty if it is blank or the field is not listed.
    #[must_use]
    pub fn text(&self, field: u8) -> &[u8] {
        let slot = self.slot(field).get(REVISION_SIZE + PARTY_SIZE..);
        slot.map_or(&[], slots::text)
    }

    /// A field's revision; 0 if it was never given or is not listed.
    #[must_use]
    pub fn revision(&self, field: u8) -> u32 {
        let bytes = self.slot(field).first_chunk::<REVISION_SIZE>();
        bytes.copied().map_or(0, u32::from_be_bytes)
    }

    /// The party that gave a field, if one did.
    #[must_use]
    pub fn party(&self, field: u8) -> Option<Party> {
        let party = self.slot(field).get(REVISION_SIZE).copied().map(Party);
        party.filter(|party| [Party::CLIENT, Party::ADVISER].contains(party))
    }

    /// The fields in the order of their slots, each with its text.
    pub fn texts(&self) -> impl Iterator<Item = (u8, &[u8])> {
        FIELDS.into_iter().map(|field| (field, self.text(field)))
    }

    /// [`post`]s a message.
    ///
    /// # Errors
    ///
    /// As there.
    #[inline]
    pub fn post(&mut self, message: &[u8]) -> Result<Posted, Refusal> {
        post(&mut self.0, message)
    }

    /// Posts a text of this party's for a field, in a message of version 2.
    ///
    /// # Errors
    ///
    /// Those of [`write`](crate::write()), then those of [`post`].
    pub fn give(
        &mut self,
        party: Party,
        field: u8,
        revision: u32,
        text: &[u8],
    ) -> Result<Posted, Refusal> {
        let mut message = [0; MESSAGE_MAX];
        let length = write(Version::TWO, party, field, revision, text, &mut message)?;
        self.post(&message[..length])
    }

    /// The texts alone: [`copy`].
    ///
    /// # Errors
    ///
    /// [`Refusal::Malformed`].
    pub fn sheet(&self) -> Result<Sheet, Refusal> {
        let mut sheet = Sheet::new();
        copy(&self.0, &mut sheet)?;
        Ok(sheet)
    }

    /// Tests the draft ahead of completion: [`pretest`].
    ///
    /// # Errors
    ///
    /// As there.
    #[inline]
    pub fn pretest(&self) -> Result<Option<Broken>, Refusal> {
        pretest(&self.0)
    }

    /// [`complete`]s the draft, into a sheet of its own.
    ///
    /// # Errors
    ///
    /// As there.
    #[inline]
    pub fn complete(&self, terms: Terms) -> Result<(Sheet, Completed), Refusal> {
        let mut sheet = Sheet::new();
        let completed = complete(&self.0, &mut sheet, terms)?;
        Ok((sheet, completed))
    }

    /// Takes up the values that a sheet has for these fields, as the adviser's: [`take_up`].
    ///
    /// # Errors
    ///
    /// As there; a field that is not listed is [`Refusal::UnknownField`].
    pub fn take_up(
        &mut self,
        sheet: &Sheet,
        fields: impl IntoIterator<Item = u8>,
    ) -> Result<(), Refusal> {
        let mut set = 0;
        for field in fields {
            set |= 1 << slots::slot_of(field).ok_or(Refusal::UnknownField)?;
        }
        take_up(&mut self.0, sheet, set)
    }
}

impl Default for Draft {
    fn default() -> Self {
        Self::new()
    }
}

impl From<[u8; DRAFT_SIZE]> for Draft {
    fn from(bytes: [u8; DRAFT_SIZE]) -> Self {
        Self(bytes)
    }
}

impl From<Draft> for [u8; DRAFT_SIZE] {
    fn from(draft: Draft) -> Self {
        draft.0
    }
}

/// The draft with these bytes, if they are [`DRAFT_SIZE`].
impl TryFrom<&[u8]> for Draft {
    type Error = Refusal;

    fn try_from(bytes: &[u8]) -> Result<Self, Refusal> {
        let bytes = bytes.try_into().map_err(|_| Refusal::Malformed)?;
        Ok(Self(bytes))
    }
}

impl Deref for Draft {
    type Target = [u8];

    fn deref(&self) -> &[u8] {
        &self.0
    }
}

impl DerefMut for Draft {
    fn deref_mut(&mut self) -> &mut [u8] {
        &mut self.0
    }
}

/// The fields that were given, with revision, party and text.
impl fmt::Debug for Draft {
    fn fmt(&self, f: &mut fmt::Formatter<'_>) -> fmt::Result {
        let given = FIELDS.into_iter().filter(|&field| self.revision(field) > 0);
        let given = given.map(|field| {
            let text = windows1251::text(self.text(field));
            (field, (self.revision(field), self.party(field), text))
        });
        f.debug_map().entries(given).finish()
    }
}

//! A sheet: the texts of an order.

use std::fmt;
use std::ops::{Deref, DerefMut};

use crate::{broken_rules, check, read_lines, slots, windows1251};
use crate::{BrokenRules, Class, Refusal, Terms, FIELDS, SHEET_SIZE, SHEET_SLOT_SIZE};

/// The texts of an order, a slot for each field: [`SHEET_SIZE`] bytes, any of them. It stands
/// where the functions of this crate take a sheet's bytes.
///
/// ```
/// use kieselbrot::{Date, Refusal, Sheet, Terms};
///
/// let terms = Terms::given(Date(20240115));
/// let (field, rule) = (14, 1);
/// assert_eq!(Sheet::new().check(terms), Err(Refusal::Broken { field, rule }));
///
/// let sheet = Sheet::new().with(14, b"004525987");
/// assert_eq!(sheet.text(14), b"004525987");
/// let (field, rule) = (17, 3);
/// assert_eq!(sheet.check(terms), Err(Refusal::Broken { field, rule }));
/// ```
#[repr(transparent)]
#[derive(Clone, Copy, PartialEq, Eq, Hash)]
pub struct Sheet([u8; SHEET_SIZE]);

impl Sheet {
    /// The blank sheet.
    #[must_use]
    pub const fn new() -> Self {
        Self([0; SHEET_SIZE])
    }

    /// The texts of MT103 lines, all others blank.
    ///
    /// # Errors
    ///
    /// As [`read_lines`]: [`Refusal::NoLines`].
    pub fn from_lines(block: &[u8]) -> Result<Self, Refusal> {
        let mut sheet = Self::new();
        read_lines(block, &mut sheet)?;
        Ok(sheet)
    }

    /// The bytes.
    #[must_use]
    pub const fn as_bytes(&self) -> &[u8; SHEET_SIZE] {
        &self.0
    }

    /// A field's text, in Windows-1251; empty if it is blank or the field is not listed.
    #[must_use]
    pub fn text(&self, field: u8) -> &[u8] {
        slots::slot(&self.0, SHEET_SLOT_SIZE, field).map_or(&[], slots::text)
    }

    /// The fields in the order of their slots, each with its text.
    pub fn texts(&self) -> impl Iterator<Item = (u8, &[u8])> {
        FIELDS.into_iter().map(|field| (field, self.text(field)))
    }

    /// The sheet with a listed field's text changed to these bytes of Windows-1251, of which
    /// there are at most 25; others are left out.
    #[must_use]
    pub fn with(&self, field: u8, text: &[u8]) -> Self {
        let mut changed = *self;
        let mut slots = changed.0.chunks_exact_mut(SHEET_SLOT_SIZE);
        let slot = slots::slot_of(field).and_then(|slot| slots.nth(slot));
        if let Some([length, bytes @ ..]) = slot {
            let text = &text[..text.len().min(bytes.len())];
            bytes.fill(0);
            bytes[..text.len()].copy_from_slice(text);
            *length = text.len() as u8;
        }
        changed
    }

    /// [`check`]s the sheet.
    ///
    /// # Errors
    ///
    /// As there.
    #[inline]
    pub fn check(&self, terms: Terms) -> Result<Class, Refusal> {
        check(&self.0, terms)
    }

    /// Tells all [`broken_rules`] of the sheet.
    ///
    /// # Errors
    ///
    /// As there.
    #[inline]
    pub fn broken_rules(&self, terms: Terms) -> Result<BrokenRules, Refusal> {
        broken_rules(&self.0, terms)
    }
}

impl Default for Sheet {
    fn default() -> Self {
        Self::new()
    }
}

impl From<[u8; SHEET_SIZE]> for Sheet {
    fn from(bytes: [u8; SHEET_SIZE]) -> Self {
        Self(bytes)
    }
}

impl From<Sheet> for [u8; SHEET_SIZE] {
    fn from(sheet: Sheet) -> Self {
        sheet.0
    }
}

/// The sheet with these bytes, if they are [`SHEET_SIZE`].
impl TryFrom<&[u8]> for Sheet {
    type Error = Refusal;

    fn try_from(bytes: &[u8]) -> Result<Self, Refusal> {
        let bytes = bytes.try_into().map_err(|_| Refusal::Malformed)?;
        Ok(Self(bytes))
    }
}

impl Deref for Sheet {
    type Target = [u8];

    fn deref(&self) -> &[u8] {
        &self.0
    }
}

impl DerefMut for Sheet {
    fn deref_mut(&mut self) -> &mut [u8] {
        &mut self.0
    }
}

/// The fields that are not blank, with their texts.
impl fmt::Debug for Sheet {
    fn fmt(&self, f: &mut fmt::Formatter<'_>) -> fmt::Result {
        let texts = self.texts().filter(|(_, text)| !text.is_empty());
        let texts = texts.map(|(field, text)| (field, windows1251::text(text)));
        f.debug_map().entries(texts).finish()
    }
}

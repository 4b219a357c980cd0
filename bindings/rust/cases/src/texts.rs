//! Texts, and how sheets, drafts and messages hold them.

use std::ops::Deref;

use crate::parties::{advised, draft_slot, DRAFT_SIZE, DRAFT_SLOT_SIZE};

/// The numbers of the fields in the order of their slots.
pub const FIELDS: [u8; 15] = [
    14, 15, 17, 22, 60, 61, 101, 102, 103, 104, 105, 106, 107, 108, 109,
];

/// The fields that completion may fill.
pub const FILLABLE: [u8; 10] = [22, 60, 101, 102, 104, 105, 106, 107, 108, 109];

/// The fields that document 01's completion examples leave blank.
pub const BLANKS: [u8; 7] = [22, 101, 105, 106, 107, 108, 109];

/// The bytes of a sheet.
pub type Sheet = [u8; 390];

/// The bytes of a draft.
pub type Draft = [u8; DRAFT_SIZE];

/// The slot of a listed field.
///
/// # Panics
///
/// If the field is not listed.
#[must_use]
pub fn slot_of(field: u8) -> usize {
    FIELDS
        .iter()
        .position(|&listed| listed == field)
        .expect("a listed field")
}

/// A text of up to 31 bytes: more than a slot has room for.
#[derive(Clone, Copy, Debug, PartialEq, Eq)]
pub struct Text {
    length: u8,
    bytes: [u8; 31],
}

impl Text {
    /// The empty text.
    pub const BLANK: Self = Self {
        length: 0,
        bytes: [0; 31],
    };

    /// A text of these bytes, the first 31 of them.
    #[must_use]
    pub fn new(text: &[u8]) -> Self {
        let mut new = Self::BLANK;
        text.iter().for_each(|&byte| new.push(byte));
        new
    }

    /// Adds a byte, if there is room.
    pub fn push(&mut self, byte: u8) {
        if let Some(place) = self.bytes.get_mut(usize::from(self.length)) {
            *place = byte;
            self.length += 1;
        }
    }

    /// Takes the last byte away.
    pub fn pop(&mut self) {
        if let Some(length) = self.length.checked_sub(1) {
            self.length = length;
            self.bytes[usize::from(length)] = 0;
        }
    }

    /// The text with its bytes open to change.
    pub fn bytes_mut(&mut self) -> &mut [u8] {
        &mut self.bytes[..usize::from(self.length)]
    }

    /// The slot of a sheet: the true length, and 25 bytes of text and padding.
    #[must_use]
    pub fn slot(&self) -> [u8; 26] {
        let mut slot = [0; 26];
        slot[0] = self.length;
        slot[1..].copy_from_slice(&self.bytes[..25]);
        slot
    }
}

impl Deref for Text {
    type Target = [u8];

    fn deref(&self) -> &[u8] {
        &self.bytes[..usize::from(self.length)]
    }
}

/// The fifteen texts of an order.
#[derive(Clone, Copy, Debug, PartialEq, Eq)]
pub struct Texts([Text; 15]);

impl Texts {
    /// No text given.
    pub const BLANK: Self = Self([Text::BLANK; 15]);

    /// Document 01's sheet S.
    #[must_use]
    pub fn s() -> Self {
        const S: [&str; 15] = [
            "004525987",
            "40102810845370000004",
            "03100643000000014800",
            "0",
            "7701569743",
            "6730054024",
            "01",
            "770301001",
            "772801001",
            "18201061201010000510",
            "0",
            "0",
            "0",
            "0",
            "0",
        ];
        Self(S.map(|text| Text::new(text.as_bytes())))
    }

    /// The texts of a well-formed sheet.
    ///
    /// # Panics
    ///
    /// If a length is above 25.
    #[must_use]
    pub fn of(sheet: &[u8]) -> Self {
        let slots = FIELDS.into_iter().zip(sheet.chunks_exact(26));
        slots.fold(Self::BLANK, |texts, (field, slot)| {
            texts.with(field, &slot[1..][..usize::from(slot[0])])
        })
    }

    /// The same with a field's text changed.
    #[must_use]
    pub fn with(mut self, field: u8, text: &[u8]) -> Self {
        self.set(field, Text::new(text));
        self
    }

    /// The same with these fields blank.
    #[must_use]
    pub fn without(mut self, fields: &[u8]) -> Self {
        fields
            .iter()
            .for_each(|&field| self.set(field, Text::BLANK));
        self
    }

    /// A field's text.
    #[must_use]
    pub fn get(&self, field: u8) -> Text {
        self.0[slot_of(field)]
    }

    /// Changes a field's text.
    pub fn set(&mut self, field: u8, text: Text) {
        self.0[slot_of(field)] = text;
    }

    /// The sheet of these texts.
    #[must_use]
    pub fn sheet(&self) -> Sheet {
        let mut sheet = [0; 390];
        for (slot, text) in sheet.chunks_exact_mut(26).zip(&self.0) {
            slot.copy_from_slice(&text.slot());
        }
        sheet
    }

    /// A draft of these texts with a revision for each, given by the adviser.
    #[must_use]
    pub fn draft(&self, mut revision: impl FnMut(Text) -> u32) -> Draft {
        let mut draft = [0; DRAFT_SIZE];
        for (slot, text) in draft.chunks_exact_mut(DRAFT_SLOT_SIZE).zip(&self.0) {
            let revision = revision(*text);
            slot.copy_from_slice(&draft_slot(revision, advised(revision), text));
        }
        draft
    }

    /// The messages of all fields, blank ones too, end to end in slot order.
    #[must_use]
    pub fn messages(&self, revision: u32) -> Vec<u8> {
        FIELDS
            .into_iter()
            .flat_map(|field| message(field, revision, &self.get(field)))
            .collect()
    }
}

/// The bytes of a message of version 1; any field, revision and length of text.
#[must_use]
pub fn message(field: u8, revision: u32, text: &[u8]) -> Vec<u8> {
    let mut bytes = Vec::with_capacity(8 + text.len());
    bytes.extend(((6 + text.len()) as u16).to_be_bytes());
    bytes.extend([1, field]);
    bytes.extend(revision.to_be_bytes());
    bytes.extend(text);
    bytes
}

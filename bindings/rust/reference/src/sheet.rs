//! The sheet: its bytes, and the fifteen texts they hold.

use std::ops::{Index, IndexMut};

use crate::field::{Field, FIELDS};

/// "A text has 0 to 25 bytes".
pub(crate) const TEXT_MAX: usize = 25;

/// "Text length, text padded to 25".
pub(crate) type SheetSlot = [u8; 1 + TEXT_MAX];

/// "A sheet has 390 bytes, slot i at 26 × i".
type SheetSlots = [SheetSlot; FIELDS];

/// "A sheet has 390 bytes".
pub(crate) const SHEET_SIZE: usize = size_of::<SheetSlots>();

/// The fifteen texts of a sheet, in slot order.
#[derive(Clone, Copy, Debug, PartialEq, Eq)]
pub(crate) struct Sheet<'a>([&'a [u8]; FIELDS]);

impl<'a> Sheet<'a> {
    /// The sheet with every field blank.
    pub(crate) const BLANK: Self = Self([&[]; FIELDS]);

    /// The texts of these bytes, or `None` if the bytes are malformed:
    /// "another size, a length above 25, a nonzero pad byte".
    pub(crate) fn parse(bytes: &'a [u8]) -> Option<Self> {
        let (slots, []) = bytes.as_chunks() else {
            return None;
        };
        let slots: &SheetSlots = slots.try_into().ok()?;
        let mut sheet = Self::BLANK;
        for (text, slot) in sheet.0.iter_mut().zip(slots) {
            *text = unpad(slot)?;
        }
        Some(sheet)
    }

    /// Writes the texts into the slots of an output sheet.
    pub(crate) fn write_to(&self, output: &mut SheetSlots) {
        for (slot, text) in output.iter_mut().zip(self.0) {
            pad(text, slot);
        }
    }
}

impl<'a> Index<Field> for Sheet<'a> {
    type Output = &'a [u8];

    fn index(&self, field: Field) -> &&'a [u8] {
        &self.0[field.slot()]
    }
}

impl<'a> IndexMut<Field> for Sheet<'a> {
    fn index_mut(&mut self, field: Field) -> &mut &'a [u8] {
        &mut self.0[field.slot()]
    }
}

/// The slots of an output buffer, or `None` if it is "a sheet not of 390".
pub(crate) fn output(bytes: &mut [u8]) -> Option<&mut SheetSlots> {
    let (slots, []) = bytes.as_chunks_mut() else {
        return None;
    };
    slots.try_into().ok()
}

/// The text in a slot, or `None` for "a length above 25, a nonzero pad byte".
pub(crate) fn unpad(slot: &SheetSlot) -> Option<&[u8]> {
    let [length, area @ ..] = slot;
    let (text, padding) = area.split_at_checked(usize::from(*length))?;
    padding.iter().all(|&byte| byte == 0).then_some(text)
}

/// Stores a text of at most 25 bytes in a slot, "padded with zero bytes to 25".
pub(crate) fn pad(text: &[u8], slot: &mut SheetSlot) {
    debug_assert!(text.len() <= TEXT_MAX);
    let [length, area @ ..] = slot;
    let (start, padding) = area.split_at_mut(text.len());
    *length = text.len() as u8;
    start.copy_from_slice(text);
    padding.fill(0);
}

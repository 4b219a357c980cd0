//! The draft: fresh, posting, and copying to a sheet.

use std::cmp::Ordering;

use crate::field::{Field, FIELDS};
use crate::message;
use crate::party::Party;
use crate::refusal::Refusal;
use crate::sheet::{self, Sheet, SheetSlot};

/// "Revision (4, big-endian, 0 = never given)"; "A slot gains a party byte after
/// its revision".
const STAMP_SIZE: usize = size_of::<u32>() + 1;

/// "So it has 31 bytes and a draft 465": revision, party, "text length (1), text
/// padded with zero bytes to 25".
pub const SLOT_SIZE: usize = STAMP_SIZE + size_of::<SheetSlot>();

/// "So it has 31 bytes and a draft 465": slot i at 31 × i.
pub const DRAFT_SIZE: usize = SLOT_SIZE * FIELDS;

/// What posting a message did.
#[derive(Clone, Copy, Debug, PartialEq, Eq, Hash)]
pub enum Posted {
    /// A higher revision, or the slot's revision by the adviser over the client's:
    /// stored.
    Newer,
    /// The slot's revision, party and text: nothing changed.
    Same,
    /// A lower revision, or the slot's revision by the client under the adviser's:
    /// nothing changed.
    Older,
}

/// A revision that was given, and the party that gave it. The order is R-8's
/// "greatest by revision, then party".
#[derive(Clone, Copy, Debug, PartialEq, Eq, PartialOrd, Ord)]
struct Revision {
    number: u32,
    party: Party,
}

impl Revision {
    /// A message's against the slot's, which may be none.
    ///
    /// "The higher revision stands; at equal revisions the adviser's stands over
    /// the client's, whichever came first, and the answer is 'newer' or 'older'
    /// accordingly. Clash 6 needs equal party too".
    fn against(self, stored: Option<Self>, same_text: bool) -> Result<Posted, Refusal> {
        match Some(self).cmp(&stored) {
            Ordering::Greater => Ok(Posted::Newer),
            Ordering::Equal if same_text => Ok(Posted::Same),
            Ordering::Equal => Err(Refusal::Clash),
            Ordering::Less => Ok(Posted::Older),
        }
    }
}

/// A slot of a draft, as read.
#[derive(Clone, Copy)]
struct Slot<'a> {
    /// `None` if "never given".
    revision: Option<Revision>,
    text: &'a [u8],
}

impl<'a> Slot<'a> {
    const NEVER_GIVEN: Self = Self {
        revision: None,
        text: &[],
    };

    /// `None` if the slot is malformed: "a length above 25, a nonzero pad byte;
    /// in a draft also revision 0 with a text"; the party is "0 exactly if the
    /// revision is 0 and otherwise 1 or 2".
    fn parse(bytes: &'a [u8; SLOT_SIZE]) -> Option<Self> {
        let (&[r0, r1, r2, r3, party], padded) = bytes.split_first_chunk::<STAMP_SIZE>()?;
        let text = sheet::unpad(padded.try_into().ok()?)?;
        let number = u32::from_be_bytes([r0, r1, r2, r3]);
        if number == 0 {
            return (party == 0 && text.is_empty()).then_some(Self::NEVER_GIVEN);
        }
        let party = Party::from_number(party)?;
        let revision = Some(Revision { number, party });
        Some(Self { revision, text })
    }

    /// The revision after the slot's; the greatest has none.
    fn revision_after(&self) -> Option<u32> {
        match self.revision {
            None => Some(1),
            Some(revision) => revision.number.checked_add(1),
        }
    }
}

/// A well-formed draft, as read.
struct Draft<'a>([Slot<'a>; FIELDS]);

impl<'a> Draft<'a> {
    /// Reads a draft; refusal 1 if it is malformed.
    fn parse(bytes: &'a [u8]) -> Result<Self, Refusal> {
        Self::slots(bytes).map(Self).ok_or(Refusal::Malformed)
    }

    fn slots(bytes: &'a [u8]) -> Option<[Slot<'a>; FIELDS]> {
        let (chunks, []) = bytes.as_chunks() else {
            return None;
        };
        let chunks: &[[u8; SLOT_SIZE]; FIELDS] = chunks.try_into().ok()?;
        let mut slots = [Slot::NEVER_GIVEN; FIELDS];
        for (slot, bytes) in slots.iter_mut().zip(chunks) {
            *slot = Slot::parse(bytes)?;
        }
        Some(slots)
    }
}

/// The draft's sheet: "Copying a draft to a sheet drops the revisions; what it
/// gives is the draft's sheet." It drops the parties too. Refusal 1 if the draft is
/// malformed.
pub(crate) fn sheet_of(draft: &[u8]) -> Result<Sheet<'_>, Refusal> {
    let Draft(slots) = Draft::parse(draft)?;
    let mut sheet = Sheet::BLANK;
    for (field, slot) in Field::ALL.into_iter().zip(slots) {
        sheet[field] = slot.text;
    }
    Ok(sheet)
}

/// The revision after each slot's, if there is one. Refusal 1 if the draft is
/// malformed.
pub(crate) fn revisions_after(draft: &[u8]) -> Result<[Option<u32>; FIELDS], Refusal> {
    let Draft(slots) = Draft::parse(draft)?;
    Ok(slots.map(|slot| slot.revision_after()))
}

/// Makes a draft fresh: "all zero", whatever it held.
///
/// # Errors
///
/// [`Refusal::Malformed`]: "for fresh, size not" that of a draft, 465 now.
pub fn fresh(draft: &mut [u8]) -> Result<(), Refusal> {
    if draft.len() != DRAFT_SIZE {
        return Err(Refusal::Malformed);
    }
    draft.fill(0);
    Ok(())
}

/// Posts a message to a draft.
///
/// "The higher revision stands; at equal revisions the adviser's stands over the
/// client's, whichever came first, and the answer is 'newer' or 'older'
/// accordingly." What is newer is stored, its party too; "same" and "older" "change
/// nothing. An empty text with a higher revision blanks the field."
///
/// # Errors
///
/// In this order: [`Refusal::Malformed`] for the draft, the refusals of
/// [`read`](crate::read), [`Refusal::Clash`].
pub fn post(draft: &mut [u8], message: &[u8]) -> Result<Posted, Refusal> {
    let Draft(slots) = Draft::parse(draft)?;
    let message = message::parse(message)?;
    let stored = slots[message.field.slot()];
    let revision = Revision {
        number: message.revision,
        party: message.party,
    };
    let posted = revision.against(stored.revision, message.text == stored.text)?;
    if posted == Posted::Newer {
        store(draft, message.field, revision, message.text);
    }
    Ok(posted)
}

/// Stores a revision, its party and a text in the field's slot of a well-formed
/// draft.
fn store(draft: &mut [u8], field: Field, revision: Revision, text: &[u8]) {
    let mut padded: SheetSlot = [0; size_of::<SheetSlot>()];
    sheet::pad(text, &mut padded);
    let slot = &mut draft[field.slot() * SLOT_SIZE..][..SLOT_SIZE];
    let (stamp, text_bytes) = slot.split_at_mut(STAMP_SIZE);
    let [r0, r1, r2, r3] = revision.number.to_be_bytes();
    stamp.copy_from_slice(&[r0, r1, r2, r3, revision.party.number()]);
    text_bytes.copy_from_slice(&padded);
}

/// Copies a draft to a sheet: "Copying a draft to a sheet drops the revisions", and
/// the parties.
///
/// # Errors
///
/// In this order: [`Refusal::Malformed`] for the draft, [`Refusal::Output`]
/// for "a sheet not of 390".
pub fn copy(draft: &[u8], sheet: &mut [u8]) -> Result<(), Refusal> {
    let texts = sheet_of(draft)?;
    let output = sheet::output(sheet).ok_or(Refusal::Output)?;
    texts.write_to(output);
    Ok(())
}

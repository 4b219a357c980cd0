//! "Taking up part of a proposal."

use crate::completion::is_open;
use crate::draft::{post, revisions_after, sheet_of};
use crate::field::{Field, FIELDS};
use crate::message::{write, Version, MESSAGE_MAX};
use crate::party::Party;
use crate::refusal::Refusal;
use crate::sheet::{Sheet, SHEET_SIZE};

/// Takes up part of a proposal: posts the proposed sheet's text for each slot of the
/// set (bit i for slot i, as in the set that completion returns), each with the
/// revision after its slot's, whichever party gave that.
///
/// "Advisers accept proposed values one by one", so they are posted as the adviser's,
/// in version 1: "Version 1 counts as the adviser". The sheet need not be one that
/// completion made; its texts outside the set are not taken. An empty set changes
/// nothing.
///
/// # Errors
///
/// In this order: [`Refusal::Malformed`] for a malformed draft or sheet of 390 bytes,
/// [`Refusal::Output`] for "a sheet not of 390", [`Refusal::NotTakenUp`] with the
/// field of the lowest slot of the set that can't be taken up. None changes the draft,
/// not even in some of the slots.
pub fn take_up(draft: &mut [u8], sheet: &[u8], set: u16) -> Result<(), Refusal> {
    let given = sheet_of(draft)?;
    let revisions = revisions_after(draft)?;
    let proposed = proposal(sheet)?;
    let mut after = draft.to_vec();
    for slot in slots(set) {
        let field = field_in(slot)?;
        let refusal = refused(field.number());
        if !is_open(&given, field) || proposed[field].is_empty() {
            return Err(refusal);
        }
        let revision = revisions[slot].ok_or(refusal)?;
        let mut message = [0; MESSAGE_MAX];
        let size = write(
            Version::One.number(),
            Party::Adviser.number(),
            field.number(),
            revision,
            proposed[field],
            &mut message,
        )?;
        post(&mut after, &message[..size])?;
    }
    draft.copy_from_slice(&after);
    Ok(())
}

/// The texts of a proposed sheet: refusal 1 for one of 390 bytes, 7 for another size.
fn proposal(sheet: &[u8]) -> Result<Sheet<'_>, Refusal> {
    match sheet.len() {
        SHEET_SIZE => Sheet::parse(sheet).ok_or(Refusal::Malformed),
        _ => Err(Refusal::Output),
    }
}

/// The bits of the set, lowest first.
fn slots(set: u16) -> impl Iterator<Item = usize> {
    (0..=FIELDS).filter(move |slot| set >> slot & 1 == 1)
}

/// The field in a slot; refusal 20 with field 0 for bit 15, which is no slot's.
fn field_in(slot: usize) -> Result<Field, Refusal> {
    Field::ALL.get(slot).copied().ok_or(refused(0))
}

const fn refused(field: u8) -> Refusal {
    Refusal::NotTakenUp { field }
}

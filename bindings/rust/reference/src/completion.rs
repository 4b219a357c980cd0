//! Completion of a draft.

use std::slice;

use crate::dates::{Date, Dates, Record};
use crate::draft::sheet_of;
use crate::field::Field;
use crate::refusal::Refusal;
use crate::rules::{classify, judge, Class, BASES, STATUSES};
use crate::sheet::{self, Sheet};

/// "22, 60, 102, 104, 105, 107: "0"."
const ZERO: &[&[u8]] = &[b"0"];

/// "108 and 109: "0", "00"."
const ZEROS: &[&[u8]] = &[b"0", b"00"];

/// What a completion found.
#[derive(Clone, Copy, Debug, PartialEq, Eq, Hash)]
pub struct Completed {
    /// "The count of fillings up to and including it".
    pub count: u32,
    /// "A 16-bit set of the filled slots (bit i for slot i)".
    pub set: u16,
    /// "How many bits are set".
    pub ones: u32,
}

/// Completes a draft of an order with this date: writes "the first filling that
/// keeps all rules" to the sheet, whatever that held.
///
/// # Errors
///
/// In this order: [`Refusal::Malformed`] for the draft, [`Refusal::Output`]
/// for the sheet, [`Refusal::Undated`] ("it comes just before 8"),
/// [`Refusal::Broken`] for rules 1 to 3, [`Refusal::Ordinary`],
/// [`Refusal::NoFilling`].
pub fn complete(
    draft: &[u8],
    sheet: &mut [u8],
    date: Date,
    record: Record,
) -> Result<Completed, Refusal> {
    complete_skipping(draft, sheet, date, record, |_, _, _| false)
}

/// Completes a draft as [`complete`] does, but passes over a status if `skips` says
/// so, as [`first_filling`] does.
pub(crate) fn complete_skipping(
    draft: &[u8],
    sheet: &mut [u8],
    date: Date,
    record: Record,
    mut skips: impl FnMut(&Sheet<'_>, Class, Dates) -> bool,
) -> Result<Completed, Refusal> {
    let given = sheet_of(draft)?;
    let output = sheet::output(sheet).ok_or(Refusal::Output)?;
    let dates = Dates::new(date, record)?;
    let class = budget_class(&given)?;
    let (filling, count) = first_filling(
        &given,
        |status| dates.allow(status),
        |filling| skips(filling, class, dates),
        |filling| judge(filling, dates).is_ok(),
    )?;
    filling.write_to(output);
    let set = filled(&given);
    Ok(Completed {
        count,
        set,
        ones: set.count_ones(),
    })
}

/// The class of "a draft whose sheet is one", a budget payment: A or B. Refusal
/// 8: "a broken rule; in completion only 1 to 3"; refusal 9: "completion of class
/// O".
pub(crate) fn budget_class(given: &Sheet<'_>) -> Result<Class, Refusal> {
    match classify(given)? {
        Class::O => Err(Refusal::Ordinary),
        class => Ok(class),
    }
}

/// A field's list; of that of 101 the date allows all or a part. "Fields 14, 15,
/// 17, 61, 103 have no list and stay as given."
const fn list(field: Field) -> &'static [&'static [u8]] {
    match field {
        Field::Code
        | Field::PayerInn
        | Field::PayerKpp
        | Field::Kbk
        | Field::Oktmo
        | Field::CustomsOffice => ZERO,
        Field::Status => &STATUSES,
        Field::Basis => &BASES,
        Field::Document | Field::Date => ZEROS,
        Field::Bik
        | Field::BankAccount
        | Field::RecipientAccount
        | Field::RecipientInn
        | Field::RecipientKpp => &[],
    }
}

/// An entry of the list of the field with this number, by its place from 0, or none.
///
/// The paper names no such function: the lists are those of "Completion", that of 101
/// as R-7 has it.
///
/// # Errors
///
/// In this order: [`Refusal::Undated`], [`Refusal::UnknownField`].
pub fn entry(
    number: u8,
    place: usize,
    date: Date,
    record: Record,
) -> Result<Option<&'static [u8]>, Refusal> {
    let dates = Dates::new(date, record)?;
    let field = Field::from_number(number).ok_or(Refusal::UnknownField)?;
    let mut entries = list(field)
        .iter()
        .copied()
        .filter(|entry| field != Field::Status || dates.allow(entry));
    Ok(entries.nth(place))
}

/// Whether a filling fills this field: a "blank field that has a list".
pub(crate) fn is_open(given: &Sheet<'_>, field: Field) -> bool {
    given[field].is_empty() && !list(field).is_empty()
}

/// The set of the filled slots.
fn filled(given: &Sheet<'_>) -> u16 {
    Field::ALL
        .into_iter()
        .filter(|&field| is_open(given, field))
        .fold(0, |set, field| set | 1 << field.slot())
}

/// The texts a field has in the fillings: its list, or only what is given.
fn candidates<'a>(given: &'a Sheet<'a>, field: Field) -> &'a [&'a [u8]] {
    if is_open(given, field) {
        list(field)
    } else {
        slice::from_ref(&given[field])
    }
}

/// The statuses that 101 has in the fillings: those of its list that are allowed,
/// or only what is given.
fn status_candidates<'a>(
    given: &'a Sheet<'a>,
    allowed: impl Fn(&[u8]) -> bool,
) -> impl Iterator<Item = &'a [u8]> {
    let open = is_open(given, Field::Status);
    candidates(given, Field::Status)
        .iter()
        .copied()
        .filter(move |status| !open || allowed(status))
}

/// How many fillings each status has.
fn fillings_of_status(given: &Sheet<'_>) -> u32 {
    [Field::Basis, Field::Document, Field::Date]
        .into_iter()
        .map(|field| candidates(given, field).len() as u32)
        .product()
}

/// The first filling that passes and its place; refusal 10 with the count of
/// all fillings if none does. No filling after it is looked at.
///
/// "Order: 101 varies slowest, then 106, 108, 109." A blank 101 gets the allowed
/// statuses only. A status is passed over whole if `skips`, which looks at neither
/// 106, 108 nor 109, says so; "skipped fillings included in the count".
pub(crate) fn first_filling<'a>(
    given: &'a Sheet<'a>,
    allowed: impl Fn(&[u8]) -> bool,
    mut skips: impl FnMut(&Sheet<'a>) -> bool,
    mut passes: impl FnMut(&Sheet<'a>) -> bool,
) -> Result<(Sheet<'a>, u32), Refusal> {
    let mut filling = *given;
    for field in Field::ALL {
        // The four fields with longer lists get their entries in the search.
        filling[field] = candidates(given, field)[0];
    }
    let mut count = 0;
    for status in status_candidates(given, allowed) {
        filling[Field::Status] = status;
        if skips(&filling) {
            count += fillings_of_status(given);
            continue;
        }
        for basis in candidates(given, Field::Basis) {
            filling[Field::Basis] = basis;
            for document in candidates(given, Field::Document) {
                filling[Field::Document] = document;
                for date in candidates(given, Field::Date) {
                    filling[Field::Date] = date;
                    count += 1;
                    if passes(&filling) {
                        return Ok((filling, count));
                    }
                }
            }
        }
    }
    Err(Refusal::NoFilling { count })
}

//! "SWIFT lines for correspondent banks."

use crate::dates::{Date, Dates, Record};
use crate::field::Field;
use crate::refusal::Refusal;
use crate::rules::{judge, keeps_line_rules, Class};
use crate::sheet::{self, Sheet};

/// The bytes of the longest five lines, those with a code of 25 digits.
const LINES_MAX: usize = 137;

/// Writes the five lines of a sheet: "They go at the start of a lent buffer, their
/// length is returned, and the rest is left."
///
/// "For an accepted class A sheet"; "The MT103 writer takes date and record too".
///
/// # Errors
///
/// "The writer tests 1, 8, 11, then 7 (buffer too short)", with 12 "just before 8":
/// [`Refusal::Malformed`], [`Refusal::Undated`], [`Refusal::Broken`],
/// [`Refusal::NoLines`] "for class B or O", [`Refusal::Output`].
pub fn write_lines(
    sheet: &[u8],
    date: Date,
    record: Record,
    buffer: &mut [u8],
) -> Result<usize, Refusal> {
    let sheet = Sheet::parse(sheet).ok_or(Refusal::Malformed)?;
    let dates = Dates::new(date, record)?;
    if judge(&sheet, dates)? != Class::A {
        return Err(Refusal::NoLines);
    }
    let lines = lines(&sheet);
    let output = buffer.get_mut(..lines.len()).ok_or(Refusal::Output)?;
    output.copy_from_slice(&lines);
    Ok(lines.len())
}

/// "Each ended by a line feed: `:26T:S` and status; `:57D://RU`, BIK, `.`, field 15;
/// `:59:/` and field 17; `INN`, field 61, `.KPP`, field 103; `:72:/UIP/` and field
/// 22".
fn lines(sheet: &Sheet<'_>) -> Vec<u8> {
    let bik = sheet[Field::Bik];
    let bank = sheet[Field::BankAccount];
    let inn = sheet[Field::RecipientInn];
    let kpp = sheet[Field::RecipientKpp];
    let mut lines = Vec::with_capacity(LINES_MAX);
    let mut line = |parts: &[&[u8]]| {
        for part in parts {
            lines.extend_from_slice(part);
        }
        lines.push(b'\n');
    };
    line(&[b":26T:S", sheet[Field::Status]]);
    line(&[b":57D://RU", bik, b".", bank]);
    line(&[b":59:/", sheet[Field::RecipientAccount]]);
    line(&[b"INN", inn, b".KPP", kpp]);
    line(&[b":72:/UIP/", sheet[Field::Code]]);
    lines
}

/// Reads five lines: "A reader fills a sheet with these seven fields, all others
/// blank", whatever the sheet held.
///
/// "It takes exactly the blocks of these lines whose texts keep rules 1, 2, 3, 5, 7,
/// 9, 10 and 12 and make class A." It takes no date; "its reader takes 02 as well".
///
/// # Errors
///
/// "The reader 7, then 11": [`Refusal::Output`] for "a sheet not of 390",
/// [`Refusal::NoLines`] "for any other block".
pub fn read_lines(block: &[u8], sheet: &mut [u8]) -> Result<(), Refusal> {
    let output = sheet::output(sheet).ok_or(Refusal::Output)?;
    let texts = texts(block)
        .filter(keeps_line_rules)
        .ok_or(Refusal::NoLines)?;
    texts.write_to(output);
    Ok(())
}

/// The seven texts of five lines, whatever their rules say; `None` if the block isn't
/// five lines of this form. No text that keeps its rule has a line feed or a point.
fn texts(block: &[u8]) -> Option<Sheet<'_>> {
    let (status, rest) = split_once(block, b'\n')?;
    let (bank, rest) = split_once(rest, b'\n')?;
    let (account, rest) = split_once(rest, b'\n')?;
    let (recipient, rest) = split_once(rest, b'\n')?;
    let (code, rest) = split_once(rest, b'\n')?;
    if !rest.is_empty() {
        return None;
    }
    let (bik, bank) = split_once(bank.strip_prefix(b":57D://RU")?, b'.')?;
    let (inn, kpp) = split_once(recipient.strip_prefix(b"INN")?, b'.')?;

    let mut texts = Sheet::BLANK;
    texts[Field::Status] = status.strip_prefix(b":26T:S")?;
    texts[Field::Bik] = bik;
    texts[Field::BankAccount] = bank;
    texts[Field::RecipientAccount] = account.strip_prefix(b":59:/")?;
    texts[Field::RecipientInn] = inn;
    texts[Field::RecipientKpp] = kpp.strip_prefix(b"KPP")?;
    texts[Field::Code] = code.strip_prefix(b":72:/UIP/")?;
    Some(texts)
}

/// What stands before and after the first such byte, if there is one.
fn split_once(bytes: &[u8], separator: u8) -> Option<(&[u8], &[u8])> {
    let at = bytes.iter().position(|&byte| byte == separator)?;
    Some((&bytes[..at], &bytes[at + 1..]))
}

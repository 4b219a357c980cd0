//! An example, and what the second implementation says of it. To add a kind, give
//! it a letter, an output and a list of examples.

use cases::{Dates, Draft, Sheet, DRAFT_SIZE};
use compare::{Library, Reference};
use kieselbrot::{Completed, Quickened, Refusal};
use reference::{read, report};

use crate::{amounts, asked, drafts};

/// What an example asks for.
#[derive(Clone, Copy, Debug, PartialEq, Eq)]
pub enum Kind {
    /// Check a sheet at the program's dates.
    Check,
    /// Check a sheet at the dates before it.
    CheckAt,
    /// Complete the order of these messages at the dates before them.
    CompleteAt,
    /// Complete it quickly.
    QuickAt,
    /// Complete it, take up the values of the set between dates and messages, and complete
    /// it again.
    TakeUpAt,
    /// Write the MT103 lines of a sheet at the dates before it, with room for any lines.
    WriteLinesAt,
    /// Write them into a buffer that is too short for any.
    WriteShortAt,
    /// Read MT103 lines.
    ReadLines,
    /// Read a message.
    Message,
    /// Make a buffer a fresh draft.
    Fresh,
    /// Post a message to the draft before it.
    Post,
    /// Copy a draft to the sheet behind it.
    Copy,
    /// Write a message.
    Write,
    /// Test a draft ahead of completion.
    Pretest,
    /// The bank's charge.
    Charge,
    /// The part of a year.
    Part,
    /// Shares of a year.
    Shares,
    /// Pool a register.
    Pool,
    /// Which payments leave.
    Leave,
    /// Report on an input of the program `budgetorder`.
    Report,
    /// All rules that a sheet breaks, at the dates before it.
    BrokenRulesAt,
    /// The entry at a place of a field's list, at the dates before both.
    EntryAt,
    /// Which message each slot holds after these.
    Origins,
}

impl Kind {
    const fn letter(self) -> u8 {
        match self {
            Self::Check => b'c',
            Self::CheckAt => b'd',
            Self::CompleteAt => b'o',
            Self::QuickAt => b'q',
            Self::TakeUpAt => b't',
            Self::WriteLinesAt => b'w',
            Self::WriteShortAt => b's',
            Self::ReadLines => b'l',
            Self::Message => b'm',
            Self::Fresh => b'f',
            Self::Post => b'p',
            Self::Copy => b'y',
            Self::Write => b'v',
            Self::Pretest => b'e',
            Self::Charge => b'g',
            Self::Part => b'a',
            Self::Shares => b'h',
            Self::Pool => b'n',
            Self::Leave => b'x',
            Self::Report => b'r',
            Self::BrokenRulesAt => b'b',
            Self::EntryAt => b'i',
            Self::Origins => b'k',
        }
    }

    /// Whether a program runs such an example: `examples` all kinds but the newest three,
    /// `sheet_examples` and `order_examples` between them all.
    pub fn runs_in(self, program: &str) -> bool {
        let newest = matches!(self, Self::BrokenRulesAt | Self::EntryAt | Self::Origins);
        let of_orders = matches!(
            self,
            Self::CompleteAt
                | Self::QuickAt
                | Self::TakeUpAt
                | Self::Pretest
                | Self::Report
                | Self::EntryAt
                | Self::Origins
        );
        match program {
            "examples" => !newest,
            "sheet_examples" => !of_orders,
            _ => of_orders,
        }
    }

    /// The output for these bytes: a line, or all lines of a report, or MT103 lines.
    fn output(self, bytes: &[u8]) -> Vec<u8> {
        match self {
            Self::Check => line(checked(bytes, Dates::PROGRAM)),
            Self::CheckAt => {
                let (dates, sheet) = dated(bytes);
                line(checked(sheet, dates))
            }
            Self::CompleteAt => {
                let (dates, messages) = dated(bytes);
                line(completed(messages, dates))
            }
            Self::QuickAt => {
                let (dates, messages) = dated(bytes);
                line(quickened(messages, dates))
            }
            Self::TakeUpAt => {
                let (dates, rest) = dated(bytes);
                let (set, messages) = rest.split_at(2);
                let set = u16::from_be_bytes([set[0], set[1]]);
                line(taken_up(messages, set, dates))
            }
            Self::WriteLinesAt => {
                let (dates, sheet) = dated(bytes);
                line(lines_written(sheet, dates, 137))
            }
            Self::WriteShortAt => {
                let (dates, sheet) = dated(bytes);
                line(lines_written(sheet, dates, 112))
            }
            Self::ReadLines => line(lines_read(bytes)),
            Self::Message => line(message_read(bytes)),
            Self::Fresh => line(drafts::fresh_made(bytes)),
            Self::Post => line(drafts::posted(bytes)),
            Self::Copy => line(drafts::copied(bytes)),
            Self::Write => line(drafts::written(bytes)),
            Self::Pretest => line(drafts::pretested(bytes)),
            Self::Charge => line(amounts::charged(bytes)),
            Self::Part => line(amounts::parted(bytes)),
            Self::Shares => line(amounts::shared(bytes)),
            Self::Pool => line(amounts::pooled(bytes)),
            Self::Leave => line(amounts::left(bytes)),
            Self::Report => report(bytes),
            Self::BrokenRulesAt => {
                let (dates, sheet) = dated(bytes);
                line(asked::broken_rules(sheet, dates))
            }
            Self::EntryAt => {
                let (dates, asked) = dated(bytes);
                line(asked::entry(asked, dates))
            }
            Self::Origins => line(asked::origins(bytes)),
        }
    }
}

fn line(mut text: Vec<u8>) -> Vec<u8> {
    text.push(b'\n');
    text
}

/// The order's date and the entries of the record, in four bytes each, big-endian, and
/// what stands behind them.
fn dated(bytes: &[u8]) -> (Dates, &[u8]) {
    let (numbers, rest) = bytes.split_at(16);
    let number = |place: usize| {
        let bytes = numbers[4 * place..][..4].try_into();
        u32::from_be_bytes(bytes.expect("four bytes"))
    };
    let entries = [number(1), number(2), number(3)];
    (Dates::given(number(0)).with_entries(entries), rest)
}

/// Dates as bytes ahead of a sheet or messages.
pub fn with_dates(dates: Dates, bytes: &[u8]) -> Vec<u8> {
    let numbers = [&[dates.order][..], &dates.entries()].concat();
    let numbers = numbers.into_iter().flat_map(u32::to_be_bytes);
    numbers.chain(bytes.iter().copied()).collect()
}

/// `ok COUNT SET ONES STATUS` for messages end to end, posted to a fresh draft, or the
/// refusal's number and what it returns. Messages are read as the program reads them.
fn completed(messages: &[u8], dates: Dates) -> Vec<u8> {
    let mut sheet: Sheet = [0; 390];
    let completed = Reference.complete(&posted(messages), &mut sheet, dates);
    completion(completed, &sheet)
}

/// The same, and with a sheet or 10 how many statuses a quick completion skips.
fn quickened(messages: &[u8], dates: Dates) -> Vec<u8> {
    let mut sheet: Sheet = [0; 390];
    let Quickened { completed, skipped } = Reference.quick(&posted(messages), &mut sheet, dates);
    let line = completion(completed, &sheet);
    match completed {
        Ok(_) | Err(Refusal::NoFilling { .. }) => [line, format!(" {skipped}").into()].concat(),
        Err(_) => line,
    }
}

/// A set as bytes ahead of messages.
pub fn with_set(set: u16, messages: &[u8]) -> Vec<u8> {
    [&set.to_be_bytes(), messages].concat()
}

/// `ok` and the line of completing again for the values of a set, taken up from the sheet
/// that completion left, or the refusal's number and what it returns. Where completion is
/// refused, the sheet is blank.
fn taken_up(messages: &[u8], set: u16, dates: Dates) -> Vec<u8> {
    let mut draft = posted(messages);
    let mut sheet: Sheet = [0; 390];
    let _ = Reference.complete(&draft, &mut sheet, dates);
    match Reference.take_up(&mut draft, &sheet, set) {
        Ok(()) => {
            let mut again: Sheet = [0; 390];
            let completed = Reference.complete(&draft, &mut again, dates);
            [b"ok ".to_vec(), completion(completed, &again)].concat()
        }
        Err(refusal) => refusal.numbers().to_string().into_bytes(),
    }
}

/// `ok LENGTH` and, below it, the lines, written into a buffer of this size, or the refusal's
/// number and what it returns.
fn lines_written(sheet: &[u8], dates: Dates, size: usize) -> Vec<u8> {
    let mut buffer = vec![0; size];
    match Reference.write_lines(sheet, dates, &mut buffer) {
        Ok(length) => [format!("ok {length}\n").as_bytes(), &buffer[..length]].concat(),
        Err(refusal) => refusal.numbers().to_string().into_bytes(),
    }
}

/// `ok` and the fifteen texts of the sheet, with `-` for a blank, or the refusal's number.
fn lines_read(block: &[u8]) -> Vec<u8> {
    let mut sheet: Sheet = [255; 390];
    match Reference.read_lines(block, &mut sheet) {
        Ok(()) => [&b"ok"[..], &sheet_shown(&sheet)].concat(),
        Err(refusal) => refusal.numbers().to_string().into_bytes(),
    }
}

/// The fifteen texts of a sheet, a space before each.
pub fn sheet_shown(sheet: &[u8]) -> Vec<u8> {
    let mut texts = Vec::new();
    for slot in sheet.chunks_exact(26) {
        texts.push(b' ');
        texts.extend(shown(&slot[1..][..usize::from(slot[0])]));
    }
    texts
}

/// The line of a completion, by the sheet afterwards.
fn completion(completed: Result<Completed, Refusal>, sheet: &Sheet) -> Vec<u8> {
    match completed {
        Ok(completed) => {
            let (count, set, ones) = (completed.count, completed.set, completed.ones);
            let slot = &sheet[26 * cases::slot_of(101)..];
            let text = &slot[1..][..usize::from(slot[0])];
            let line = format!("ok {count} {set} {ones} ").into_bytes();
            [&line, shown(text)].concat()
        }
        Err(refusal) => refusal.numbers().to_string().into_bytes(),
    }
}

/// The draft of messages end to end, each 2 + L bytes or what is left; after a 2 nothing
/// more is read.
fn posted(mut messages: &[u8]) -> Draft {
    let mut draft = [0; DRAFT_SIZE];
    while !messages.is_empty() {
        let size = match messages {
            [high, low, ..] => 2 + usize::from(u16::from_be_bytes([*high, *low])),
            _ => messages.len(),
        };
        let (message, rest) = messages.split_at(size.min(messages.len()));
        if Reference.post(&mut draft, message) == Err(Refusal::Length) {
            break;
        }
        messages = rest;
    }
    draft
}

/// A text, with `-` for a blank.
pub fn shown(text: &[u8]) -> &[u8] {
    match text {
        [] => b"-",
        given => given,
    }
}

/// `ok CLASS`, or the refusal's number and what it returns.
fn checked(sheet: &[u8], dates: Dates) -> Vec<u8> {
    match Reference.check(sheet, dates) {
        Ok(class) => format!("ok {class:?}").into_bytes(),
        Err(refusal) => refusal.numbers().to_string().into_bytes(),
    }
}

/// `ok VERSION PARTY FIELD REVISION TEXT`, with `-` for a blank, or the refusal's number.
fn message_read(message: &[u8]) -> Vec<u8> {
    match read(message) {
        Ok(message) => {
            let (version, party) = (message.version, message.party);
            let (field, revision) = (message.field, message.revision);
            let head = format!("ok {version} {party} {field} {revision} ");
            [head.as_bytes(), shown(message.text)].concat()
        }
        Err(refusal) => refusal.to_string().into_bytes(),
    }
}

/// One example.
#[derive(Clone, Debug)]
pub struct Example {
    /// What it is about; no two have the same name.
    pub name: String,
    /// What it asks for.
    pub kind: Kind,
    /// What stands behind its kind and length.
    pub bytes: Vec<u8>,
}

impl Example {
    /// An example of this kind.
    pub fn new(kind: Kind, name: impl Into<String>, bytes: &[u8]) -> Self {
        Self {
            name: name.into(),
            kind,
            bytes: bytes.to_vec(),
        }
    }

    /// The example as input: kind, length, bytes.
    pub fn input(&self) -> Vec<u8> {
        let length = u16::try_from(self.bytes.len()).expect("at most 65,535 bytes");
        let mut input = vec![self.kind.letter()];
        input.extend(length.to_be_bytes());
        input.extend(&self.bytes);
        input
    }

    /// Its lines of output.
    pub fn output(&self) -> Vec<u8> {
        self.kind.output(&self.bytes)
    }
}

/// The example with this name has this line.
#[cfg(test)]
#[track_caller]
pub fn has_line(examples: &[Example], name: &str, line: &str) {
    let example = examples.iter().find(|example| example.name == name);
    let output = example.expect(name).output();
    assert_eq!(output, format!("{line}\n").as_bytes(), "{name}");
}

#[cfg(test)]
mod tests {
    use super::*;

    #[test]
    fn an_example_as_input() {
        let example = Example::new(Kind::Check, "", &[7; 258]);
        assert_eq!(example.input()[..4], [b'c', 1, 2, 7]);
        assert_eq!(example.input().len(), 3 + 258);
        let letter = |kind| Example::new(kind, "", &[]).input();
        assert_eq!(letter(Kind::Message), [b'm', 0, 0]);
        assert_eq!(letter(Kind::Report), [b'r', 0, 0]);
        assert_eq!(letter(Kind::CheckAt), [b'd', 0, 0]);
        assert_eq!(letter(Kind::CompleteAt), [b'o', 0, 0]);
        assert_eq!(letter(Kind::QuickAt), [b'q', 0, 0]);
        assert_eq!(letter(Kind::TakeUpAt), [b't', 0, 0]);
        assert_eq!(letter(Kind::WriteLinesAt), [b'w', 0, 0]);
        assert_eq!(letter(Kind::WriteShortAt), [b's', 0, 0]);
        assert_eq!(letter(Kind::ReadLines), [b'l', 0, 0]);
        for (kind, byte) in [
            (Kind::Fresh, b'f'),
            (Kind::Post, b'p'),
            (Kind::Copy, b'y'),
            (Kind::Write, b'v'),
            (Kind::Pretest, b'e'),
            (Kind::Charge, b'g'),
            (Kind::Part, b'a'),
            (Kind::Shares, b'h'),
            (Kind::Pool, b'n'),
            (Kind::Leave, b'x'),
            (Kind::BrokenRulesAt, b'b'),
            (Kind::EntryAt, b'i'),
            (Kind::Origins, b'k'),
        ] {
            assert_eq!(letter(kind), [byte, 0, 0]);
        }
    }

    #[test]
    fn dates_stand_ahead() {
        let bytes = with_dates(Dates::PROGRAM, b"ab");
        assert_eq!(bytes[..5], [0x01, 0x34, 0xD6, 0xE5, 0x01]);
        assert_eq!(dated(&bytes), (Dates::PROGRAM, &b"ab"[..]));
        assert_eq!(with_set(0x0102, b"ab"), [1, 2, b'a', b'b']);
    }
}

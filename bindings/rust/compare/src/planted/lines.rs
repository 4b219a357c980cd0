//! Differences planted in writing and reading MT103 lines.

use cases::{ended_by, lines_of, Dates, Texts, FIELDS, LINE_FIELDS};
use kieselbrot::{Class, Refusal};

use super::{registered, text, Planted};
use crate::library::{Library, Reference};
use crate::lines::is_class_a;

impl Planted {
    /// What a changed writer does.
    pub(super) fn changed_line_writing(
        self,
        sheet: &[u8],
        dates: Dates,
        buffer: &mut [u8],
    ) -> Result<usize, Refusal> {
        let before = buffer.to_vec();
        let seen = match self {
            Self::WrittenAtAnyDate if dates.fit() => Dates::PROGRAM.allowing([true; 3]),
            _ => dates,
        };
        match Reference.write_lines(sheet, seen, buffer) {
            Ok(length) => self.changed_lines(sheet, length, buffer, &before),
            Err(refusal) => self.changed_line_writing_refusal(sheet, dates, buffer, refusal),
        }
    }

    /// What becomes of lines that are written.
    fn changed_lines(
        self,
        sheet: &[u8],
        length: usize,
        buffer: &mut [u8],
        before: &[u8],
    ) -> Result<usize, Refusal> {
        match self {
            Self::LinesRestCleared => buffer[length..].fill(0),
            Self::LastFeedLeftOut => {
                buffer[length - 1] = before[length - 1];
                return Ok(length - 1);
            }
            Self::PayersInn if text(sheet, 60).len() == 10 => {
                buffer[78..88].copy_from_slice(text(sheet, 60));
            }
            Self::RoomForTheLongest if buffer.len() < 137 => {
                buffer.copy_from_slice(before);
                return Err(Refusal::Output);
            }
            _ => {}
        }
        Ok(length)
    }

    /// What is done in place of this refusal.
    fn changed_line_writing_refusal(
        self,
        sheet: &[u8],
        dates: Dates,
        buffer: &mut [u8],
        refusal: Refusal,
    ) -> Result<usize, Refusal> {
        let checked = || Reference.check(sheet, Dates::PROGRAM);
        match (self, refusal) {
            (Self::DatesBefore1, Refusal::Malformed) if !dates.fit() => Err(Refusal::Undated),
            (Self::LinesLate12, Refusal::Undated) => match checked() {
                Err(broken) => Err(broken),
                Ok(_) => Err(refusal),
            },
            (Self::ClassBefore8, Refusal::Broken { rule: 4.., .. }) if !is_class_a(sheet) => {
                Err(Refusal::NoLines)
            }
            (Self::ShortBefore11, Refusal::NoLines) if buffer.len() < 113 => Err(Refusal::Output),
            (Self::LinesOfB, Refusal::NoLines) if Reference.check(sheet, dates) == Ok(Class::B) => {
                let lines = lines_of(&Texts::of(sheet));
                match buffer.get_mut(..lines.len()) {
                    Some(start) => start.copy_from_slice(&lines),
                    None => return Err(Refusal::Output),
                }
                Ok(lines.len())
            }
            (Self::HalfWritten, Refusal::Output) => {
                let lines = lines_of(&Texts::of(sheet));
                buffer.copy_from_slice(&lines[..buffer.len()]);
                Err(refusal)
            }
            _ => Err(refusal),
        }
    }

    /// What a changed reader does.
    pub(super) fn changed_line_reading(
        self,
        block: &[u8],
        sheet: &mut [u8],
    ) -> Result<(), Refusal> {
        let before = sheet.to_vec();
        match Reference.read_lines(&self.seen_block(block), sheet) {
            Ok(()) => self.changed_sheet(block, sheet, &before),
            Err(refusal) => self.changed_line_reading_refusal(block, sheet, refusal),
        }
    }

    /// The block that a changed reader sees in place of this one.
    fn seen_block(self, block: &[u8]) -> Vec<u8> {
        let mut seen = block.to_vec();
        match self {
            Self::LastFeedNotAsked if !block.ends_with(b"\n") => seen.push(b'\n'),
            Self::TrailingLeft => {
                let lines: Vec<&[u8]> = block.split_inclusive(|&byte| byte == b'\n').collect();
                seen = lines[..lines.len().min(5)].concat();
            }
            Self::CrLfTaken => {
                seen.retain(|&byte| byte != b'\r');
                if ended_by(&seen, b"\r\n") != block {
                    seen = block.to_vec();
                }
            }
            Self::CaseIgnored => seen.make_ascii_uppercase(),
            Self::PayeeUnchecked if payee_in(block).is_some_and(|inn| registered(inn, 10)) => {
                seen[78..88].copy_from_slice(b"6730054024");
            }
            Self::FourOnAnyAccount if block.len() == 116 && block[54..].starts_with(b"03") => {
                seen[54..59].copy_from_slice(b"03212");
            }
            _ => {}
        }
        seen
    }

    /// What becomes of a sheet that is filled.
    fn changed_sheet(self, block: &[u8], sheet: &mut [u8], before: &[u8]) -> Result<(), Refusal> {
        let refused = match self {
            Self::Refused02 => text(sheet, 101) == b"02",
            Self::Rule20Asked => {
                text(sheet, 101) == b"31" && !text(sheet, 17).starts_with(b"03212")
            }
            _ => false,
        };
        if refused {
            sheet.copy_from_slice(before);
            return Err(Refusal::NoLines);
        }
        match self {
            Self::OthersKept => {
                for (slot, field) in FIELDS.into_iter().enumerate() {
                    let slot = 26 * slot..26 * (slot + 1);
                    if !LINE_FIELDS.contains(&field) {
                        sheet[slot.clone()].copy_from_slice(&before[slot]);
                    }
                }
            }
            Self::PayeeUnchecked => sheet[26 * 5 + 1..][..10].copy_from_slice(&block[78..88]),
            Self::FourOnAnyAccount => sheet[26 * 2 + 1..][..20].copy_from_slice(&block[54..74]),
            _ => {}
        }
        Ok(())
    }

    /// What is done in place of this refusal.
    fn changed_line_reading_refusal(
        self,
        block: &[u8],
        sheet: &mut [u8],
        refusal: Refusal,
    ) -> Result<(), Refusal> {
        match (self, refusal) {
            (Self::NoLinesFirst, Refusal::Output) => {
                Reference.read_lines(block, &mut [0; 390]).and(Err(refusal))
            }
            (Self::LongSheet, Refusal::Output) if sheet.len() > 390 => {
                Reference.read_lines(block, &mut sheet[..390])
            }
            (Self::BlankedBy11, Refusal::NoLines) => {
                sheet.fill(0);
                Err(refusal)
            }
            _ => Err(refusal),
        }
    }
}

/// What stands in the place of the recipient's INN.
fn payee_in(block: &[u8]) -> Option<&[u8]> {
    block.get(78..88)
}

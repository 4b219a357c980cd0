//! Which statuses a quick completion skips, and what became of them.

use std::fmt;

use cases::{slot_of, Dates, Sheet, Text, FILLABLE, LISTS};
use kieselbrot::{Completed, Quickened, Refusal};

use crate::dates::{shown, List};
use crate::library::{Library, Reference};
use crate::pretest::is_blank;
use crate::reached::text_of;

/// What a quick completion reached; with 0 for a sheet, or 10.
#[derive(Clone, Copy, Debug, PartialEq, Eq, PartialOrd, Ord)]
pub enum Skipped {
    /// So many statuses are skipped of a blank 101.
    Blank(u8, usize),
    /// So many of a given one.
    Given(u8, usize),
    /// A status of this list is skipped.
    Of(u8, List),
    /// A status that fails by this rule alone is not skipped.
    Tried(u8, u8),
}

/// How many statuses can be skipped with a sheet: what all combinations of forms give with
/// the eight lists.
const WITH_A_SHEET: [usize; 8] = [0, 1, 2, 3, 4, 5, 9, 10];

/// The same with 10.
const WITH_10: [usize; 16] = [6, 7, 8, 9, 10, 11, 12, 13, 16, 17, 18, 19, 20, 21, 22, 23];

/// The rules that depend on the status and read 106, 108 or 109. With a sheet it is 25 alone:
/// what 29 and 31 want is the same for all statuses that rule 30 leaves, and those of 26 are
/// the last.
const TRIED: [u8; 4] = [25, 26, 29, 31];

/// All that must be reached.
pub fn all() -> impl Iterator<Item = Skipped> {
    let with = |number| move |skipped| Skipped::Blank(number, skipped);
    let given = [(0, 0), (10, 0), (10, 1)];
    let lists = |list| [0, 10].map(|number| Skipped::Of(number, list));
    let tried = |rule| Skipped::Tried(10, rule);
    WITH_A_SHEET
        .into_iter()
        .map(with(0))
        .chain(WITH_10.into_iter().map(with(10)))
        .chain(given.map(|(number, skipped)| Skipped::Given(number, skipped)))
        .chain(LISTS.into_iter().flat_map(lists))
        .chain([Skipped::Tried(0, 25)])
        .chain(TRIED.map(tried))
}

impl fmt::Display for Skipped {
    fn fmt(&self, f: &mut fmt::Formatter<'_>) -> fmt::Result {
        match self {
            Self::Blank(number, skipped) => write!(f, "{skipped} with {number}"),
            Self::Given(number, skipped) => write!(f, "{skipped} of a given 101 with {number}"),
            Self::Of(number, list) => write!(f, "of {} with {number}", shown(*list)),
            Self::Tried(number, rule) => write!(f, "not by rule {rule} alone with {number}"),
        }
    }
}

/// What a quick completion reached, by the sheet afterwards.
pub fn reached(draft: &[u8], dates: Dates, answer: Quickened, sheet: &[u8]) -> Vec<Skipped> {
    let Quickened { completed, skipped } = answer;
    let number = match completed {
        Ok(_) => 0,
        Err(Refusal::NoFilling { .. }) => 10,
        Err(_) => return vec![],
    };
    let mut reached: Vec<Skipped> = tried(draft, dates, completed, sheet)
        .into_iter()
        .map(|rule| Skipped::Tried(number, rule))
        .collect();
    if !is_blank(draft, 101) {
        reached.push(Skipped::Given(number, skipped));
        return reached;
    }
    reached.push(Skipped::Blank(number, skipped));
    if skipped > 0 {
        reached.push(Skipped::Of(number, dates.allowed()));
    }
    reached
}

/// How many statuses should be skipped, judged by a check: of those ahead of the sheet's,
/// with 10 of all, those that are refused with texts in 106, 108 and 109 that keep every
/// rule that reads them. The sheet's own is not skipped.
pub fn skipped(
    library: &impl Library,
    draft: &[u8],
    dates: Dates,
    completed: Result<Completed, Refusal>,
    sheet: &[u8],
) -> usize {
    let refused = |filling: &Sheet| {
        let person = matches!(text_of(filling, 101), b"03" | b"19" | b"20" | b"24");
        let document: &[u8] = if person { PERSON } else { b"0" };
        let settled = with(with(*filling, 106, b"0"), 109, b"0");
        let settled = with(settled, 108, document);
        library.check(&settled, dates).is_err()
    };
    let failed = failed(draft, dates, completed, sheet);
    failed.iter().filter(|filling| refused(filling)).count()
}

/// A text of 108 that rule 25 takes.
const PERSON: &[u8] = b"01;1";

/// The rules by which alone a status fails, of those that read 106, 108 or 109: its first
/// filling is accepted with another text in the field that the rule names.
pub fn tried(
    draft: &[u8],
    dates: Dates,
    completed: Result<Completed, Refusal>,
    sheet: &[u8],
) -> Vec<u8> {
    let alone = |filling: &Sheet| {
        let Err(Refusal::Broken { field, rule }) = Reference.check(filling, dates) else {
            return None;
        };
        let text = if rule == 25 { PERSON } else { b"0" };
        let mended = || Reference.check(&with(*filling, field, text), dates);
        (TRIED.contains(&rule) && mended().is_ok()).then_some(rule)
    };
    let failed = failed(draft, dates, completed, sheet);
    failed.iter().filter_map(alone).collect()
}

/// The first filling of each status that failed: of those ahead of the sheet's, with 10 of
/// all.
fn failed(
    draft: &[u8],
    dates: Dates,
    completed: Result<Completed, Refusal>,
    sheet: &[u8],
) -> Vec<Sheet> {
    let own = match completed {
        Ok(_) => Some(text_of(sheet, 101)),
        Err(Refusal::NoFilling { .. }) => None,
        Err(_) => return vec![],
    };
    let mut given = [0; 390];
    // A draft that is completed is well-formed.
    let _ = Reference.copy(draft, &mut given);
    let mut blank: Vec<u8> = FILLABLE.to_vec();
    blank.retain(|&field| field != 101 && is_blank(draft, field));
    let filling = |status| {
        let filling = with(given, 101, status);
        let fill = |filling, &field: &u8| with(filling, field, b"0");
        blank.iter().fold(filling, fill)
    };
    let statuses = match is_blank(draft, 101) {
        true => dates.statuses().into_iter().map(str::as_bytes).collect(),
        false => vec![text_of(&given, 101)],
    };
    let ahead = statuses
        .into_iter()
        .take_while(|&status| Some(status) != own);
    ahead.map(filling).collect()
}

/// A sheet with another text in a field.
fn with(mut sheet: Sheet, field: u8, text: &[u8]) -> Sheet {
    sheet[26 * slot_of(field)..][..26].copy_from_slice(&Text::new(text).slot());
    sheet
}

#[cfg(test)]
mod tests {
    use std::collections::BTreeSet;

    use super::*;
    use cases::{Texts, BLANKS};

    /// What a quick completion of the second implementation reaches; the number skipped is
    /// what checks say, too.
    fn quick(texts: Texts, dates: Dates) -> Vec<Skipped> {
        let (draft, mut sheet) = (texts.draft(|_| 1), [0; 390]);
        let answer = Reference.quick(&draft, &mut sheet, dates);
        let by_checks = skipped(&Reference, &draft, dates, answer.completed, &sheet);
        assert_eq!(answer.skipped, by_checks);
        reached(&draft, dates, answer, &sheet)
    }

    #[test]
    fn a_quick_completion_reaches_its_number_and_list() {
        let open = Texts::s().without(&BLANKS);
        let unnamed = open.with(60, b"0").with(102, b"0");
        let list = Dates::PROGRAM.allowed();
        assert_eq!(quick(open, Dates::PROGRAM), [Skipped::Blank(0, 0)]);
        let (one, of_list) = (Skipped::Blank(0, 1), Skipped::Of(0, list));
        let tried = Skipped::Tried(0, 25);
        assert_eq!(quick(unnamed, Dates::PROGRAM), [tried, one, of_list]);
        let back = quick(unnamed, Dates::given(20231015));
        assert_eq!(back, [one, Skipped::Of(0, [true, true, false])]);
        let hopeless = quick(open.with(104, b"0"), Dates::PROGRAM);
        assert_eq!(hopeless, [Skipped::Blank(10, 22), Skipped::Of(10, list)]);
        assert_eq!(quick(open.with(14, b""), Dates::PROGRAM), []);
    }

    #[test]
    fn a_given_status_is_skipped_or_tried() {
        let given = |status, field, text: &[u8]| {
            let open = Texts::s().without(&BLANKS).with(101, status);
            quick(open.with(field, text), Dates::PROGRAM)
        };
        assert_eq!(given(b"08", 106, b"0"), [Skipped::Given(0, 0)]);
        assert_eq!(given(b"17", 106, b"0"), [Skipped::Given(10, 1)]);
        let by = |rule| [Skipped::Tried(10, rule), Skipped::Given(10, 0)];
        assert_eq!(given(b"24", 108, b"1"), by(25));
        assert_eq!(given(b"01", 106, b"00"), by(29));
        assert_eq!(given(b"01", 109, b"00"), by(31));
        // Rules 29 and 31 are both broken.
        let two = Texts::s().with(106, b"00").with(109, b"00");
        assert_eq!(quick(two, Dates::PROGRAM), [Skipped::Given(10, 0)]);
    }

    /// With a text in 106 that no status takes, each combination of what the rules read that
    /// read neither 106, 108 nor 109 gives its number with 10.
    #[test]
    fn the_numbers_with_10() {
        let accounts: [&[u8]; 3] = [
            b"03100643000000014800",
            b"03212643000000014800",
            b"03222643000000014800",
        ];
        let class_b = [
            (14, &b"044525000"[..]),
            (15, b""),
            (17, b"40503810000004000000"),
        ];
        let accounts = accounts.map(|account| vec![(17, account)]);
        let codes: [&[u8]; 3] = [b"0", b"1234", b"11111111111111111111"];
        let payers: [&[u8]; 4] = [b"0", b"12345", b"7701569743", b"781023456779"];
        let mut numbers = BTreeSet::new();
        for account in accounts.into_iter().chain([class_b.to_vec()]) {
            for place in 0..codes.len() * payers.len() * 8 {
                let change = |texts: Texts, &(field, text): &(u8, &[u8])| texts.with(field, text);
                let mut texts = account.iter().fold(Texts::s(), change);
                texts = texts.with(22, codes[place / 32]);
                texts = texts.with(60, payers[place / 8 % 4]);
                let zeros = [(102, 1), (104, 2)];
                for (field, _) in zeros.into_iter().filter(|(_, bit)| place & bit != 0) {
                    texts = texts.with(field, b"0");
                }
                if place & 4 != 0 {
                    texts = texts.with(107, b"10000000");
                }
                for list in LISTS {
                    let texts = texts.with(101, b"").with(106, b"000");
                    let dates = Dates::PROGRAM.allowing(list);
                    numbers.extend(quick(texts, dates));
                }
            }
        }
        let expected = WITH_10.map(|skipped| Skipped::Blank(10, skipped));
        let blank = |what: &Skipped| matches!(what, Skipped::Blank(..));
        numbers.retain(blank);
        assert_eq!(numbers.into_iter().collect::<Vec<_>>(), expected);
    }
}

//! The answers, as enums of Rust's own.

use std::fmt;
use std::ops::Deref;

use crate::PAYMENT_PLACES;
use crate::{ffi, BALANCE_MAX, FIELDS, KOPECKS_MAX, LINES_BLOCK_MAX, LINES_MAX};
use crate::{words, BrokenRules, Party, Version, TEXT_MAX};

/// The class of an accepted sheet.
#[derive(Clone, Copy, Debug, PartialEq, Eq, Hash, PartialOrd, Ord)]
pub enum Class {
    /// A budget payment to a treasury account.
    A,
    /// A budget payment to a bank account kept for a budget.
    B,
    /// An ordinary payment.
    O,
}

/// An entry of a field's list in completion: a text of one or two bytes.
#[derive(Clone, Copy, Debug, PartialEq, Eq, Hash)]
pub enum Entry {
    /// One byte: "0".
    One([u8; 1]),
    /// Two bytes: "00", a status, or a pair of letters.
    Two([u8; 2]),
}

impl Deref for Entry {
    type Target = [u8];

    fn deref(&self) -> &[u8] {
        match self {
            Self::One(text) => text,
            Self::Two(text) => text,
        }
    }
}

/// A message as read.
#[derive(Clone, Copy, Debug, PartialEq, Eq, Hash)]
pub struct Message<'a> {
    /// The version: [`Version::ONE`] or [`Version::TWO`].
    pub version: Version,
    /// Who wrote it: [`Party::CLIENT`] or [`Party::ADVISER`]; the adviser in version 1.
    pub party: Party,
    /// The number of a listed field.
    pub field: u8,
    /// The revision, not 0.
    pub revision: u32,
    /// The text, 0 to 25 bytes of Windows-1251: a part of the caller's message.
    pub text: &'a [u8],
}

/// What posting a message did.
#[derive(Clone, Copy, Debug, PartialEq, Eq, Hash)]
pub enum Posted {
    /// A higher revision than the draft had, or its revision by the adviser over the
    /// client's: stored.
    Newer,
    /// The revision, party and text that the draft has: nothing changed.
    Same,
    /// A lower revision than the draft has, or its revision by the client under the
    /// adviser's: nothing changed.
    Older,
}

/// A rule that all fillings of a draft break.
#[derive(Clone, Copy, Debug, PartialEq, Eq, Hash)]
pub struct Broken {
    /// The number of the field that the rule names.
    pub field: u8,
    /// The number of the rule.
    pub rule: u8,
}

/// What a completion found.
#[derive(Clone, Copy, Debug, PartialEq, Eq, Hash)]
pub struct Completed {
    /// The count of fillings up to and including the one in the sheet.
    pub count: usize,
    /// The filled slots, bit i for slot i.
    pub set: u16,
    /// How many bits of the set are set.
    pub ones: u32,
}

impl Completed {
    /// The numbers of the fields that were filled, in the order of their slots.
    ///
    /// ```
    /// use kieselbrot::Completed;
    ///
    /// let (count, set, ones) = (1, 1 << 6 | 1 << 14, 2);
    /// let completed = Completed { count, set, ones };
    /// assert!(completed.filled().eq([101, 109]));
    /// ```
    pub fn filled(self) -> impl Iterator<Item = u8> + Clone {
        let slots = FIELDS.into_iter().enumerate();
        slots.filter_map(move |(slot, field)| (self.set >> slot & 1 == 1).then_some(field))
    }
}

/// What a quick completion answered.
#[derive(Clone, Copy, Debug, PartialEq, Eq, Hash)]
pub struct Quickened {
    /// What [`complete`](crate::complete) answers.
    pub completed: Result<Completed, Refusal>,
    /// How many statuses were skipped: with a sheet of those up to the sheet's, with
    /// [`Refusal::NoFilling`] of all; 0 with any other refusal.
    pub skipped: usize,
}

/// A part of a year's amount: kopecks times year plus remainder is amount times days
/// exactly.
#[derive(Clone, Copy, Debug, PartialEq, Eq, Hash)]
pub struct Part {
    /// The whole kopecks.
    pub kopecks: u64,
    /// What is left of a kopeck, in parts of which the year's length makes one: below
    /// that length.
    pub remainder: u32,
}

/// A payment that waits to leave an account.
#[derive(Clone, Copy, Debug, PartialEq, Eq, Hash)]
pub struct Payment {
    /// Its priority, 1 to 5.
    pub priority: u8,
    /// Its arrival number.
    pub arrival: u32,
    /// Its amount, in kopecks.
    pub amount: u64,
}

/// How much of a balance leaves: sum plus left is the balance.
#[derive(Clone, Copy, Debug, PartialEq, Eq, Hash)]
pub struct Paid {
    /// How many payments are paid: the first so many in the order.
    pub count: usize,
    /// Their sum, in kopecks.
    pub sum: u64,
    /// What is left of the balance, in kopecks.
    pub left: u64,
}

/// Which payments leave, and in what order.
#[derive(Clone, Copy, Debug, PartialEq, Eq, Hash)]
pub struct Leaving {
    /// The arrival numbers of all payments in the order, and 0 past the last.
    pub places: [u32; PAYMENT_PLACES],
    /// How many of them are paid, and with how much.
    pub paid: Paid,
}

/// An answer other than success. A refusal changes no buffer.
///
/// It is shown in words; [`number`](Self::number) is its number. Later versions may have more.
///
/// ```
/// use kieselbrot::Refusal;
///
/// let (field, rule) = (14, 1);
/// let broken = Refusal::Broken { field, rule };
/// assert_eq!(broken.to_string(), "rule 1 is broken in field 14 (BIK)");
/// assert_eq!(broken.number(), 8);
/// assert_eq!(broken.numbers().to_string(), "8 14 1");
/// assert_eq!(Refusal::UnknownField.to_string(), "the field is not listed");
/// ```
#[derive(Clone, Copy, Debug, PartialEq, Eq, Hash)]
#[non_exhaustive]
pub enum Refusal {
    /// 1: the draft or sheet is malformed; for [`fresh`](crate::fresh), its size
    /// is not [`DRAFT_SIZE`](crate::DRAFT_SIZE).
    Malformed,
    /// 2: the message has under 2 bytes, its length is not that of the rest, or
    /// is outside 6 to 32; tested after 3, it is one that the version does not allow (6 to
    /// 31 in version 1, 7 to 32 in version 2); for [`write`](crate::write), the text is
    /// over 25.
    Length,
    /// 3: the version is not 1 or 2.
    UnknownVersion,
    /// 4: the field is not listed.
    UnknownField,
    /// 5: the revision is 0.
    RevisionZero,
    /// 6: the draft has this revision of this party with another text.
    Clash,
    /// 7: the output sheet's size is not 390, or the message buffer is too short; for
    /// [`pool`](crate::pool), the output has under 10,000 bytes; for
    /// [`take_up`](crate::take_up), the proposed sheet's size is not 390; for
    /// [`write_lines`](crate::write_lines), the buffer is shorter than the lines, tested last.
    Output,
    /// 8: a rule is broken; in completion and its pretest only rules 1 to 3.
    Broken {
        /// The number of the field that the rule names.
        field: u8,
        /// The number of the first broken rule.
        rule: u8,
    },
    /// 9: completion or pretest of a draft of class O.
    Ordinary,
    /// 10: no filling keeps the rules.
    NoFilling {
        /// The count of all fillings.
        count: usize,
    },
    /// 11: for [`write_lines`](crate::write_lines), an accepted sheet of class B or O; for
    /// [`read_lines`](crate::read_lines), a block that is none of these lines.
    NoLines,
    /// 12: for [`check`](crate::check), [`entry`](crate::entry), [`complete`](crate::complete),
    /// [`quick`](crate::quick) and [`write_lines`](crate::write_lines), the order's date or
    /// an entry of the record is no Gregorian date of the years 1900 to 2099, or the order's
    /// date is before 20230925; tested just before 8.
    Undated,
    /// 13: the party is neither the client nor the adviser; for [`write`](crate::write),
    /// also if it is the client in version 1; tested just before 4.
    UnknownParty,
    /// 14: for [`charge`](crate::charge()), an argument is out of range or the least
    /// is above the greatest.
    Tariff,
    /// 15: for [`part`](crate::part()) and [`shares`](crate::shares()), the amount is
    /// out of range or the year not of 365 or 366 days; for a part, the days are outside
    /// 1 to the year; for shares, there are not 1 to 12 periods, one is of 0 days, or they
    /// do not sum to the year.
    YearPart,
    /// 16: for [`pool`](crate::pool), the register has not 1 to 500 whole lines, the INN
    /// of a line is none or its kopecks are out of range, or the order's amount is.
    Register,
    /// 17: for [`pool`](crate::pool), the register's total is not the order's amount.
    Discrepancy {
        /// The register's total less the order's amount, in kopecks.
        difference: i64,
    },
    /// 18: for [`leave`](crate::leave()), the balance, a priority or an amount is out of
    /// range, or there are over 64 payments; for [`leave_into`](crate::leave_into), also
    /// if the lists are of different lengths.
    Queue,
    /// 19: for [`leave`](crate::leave()), two arrival numbers are equal.
    EqualArrivals,
    /// 20: for [`take_up`](crate::take_up), a slot of the set can't take up its value: the
    /// bit is no slot's, its field has no list of fillings, it is not blank in the draft, the
    /// sheet is blank there, or its revision is the greatest.
    NotTakenUp {
        /// The number of the field in the lowest such slot; 0 for bit 15, which is no
        /// slot's.
        field: u8,
    },
    /// An answer that the library of this version never gives: another library
    /// is linked.
    Unknown {
        /// The number it came with.
        number: u8,
    },
}

impl Refusal {
    /// The refusal's number in the table of document 01, or in a request.
    #[must_use]
    pub const fn number(&self) -> u8 {
        match self {
            Self::Malformed => 1,
            Self::Length => 2,
            Self::UnknownVersion => 3,
            Self::UnknownField => 4,
            Self::RevisionZero => 5,
            Self::Clash => 6,
            Self::Output => 7,
            Self::Broken { .. } => 8,
            Self::Ordinary => 9,
            Self::NoFilling { .. } => 10,
            Self::NoLines => 11,
            Self::Undated => 12,
            Self::UnknownParty => 13,
            Self::Tariff => 14,
            Self::YearPart => 15,
            Self::Register => 16,
            Self::Discrepancy { .. } => 17,
            Self::Queue => 18,
            Self::EqualArrivals => 19,
            Self::NotTakenUp { .. } => 20,
            Self::Unknown { number } => *number,
        }
    }

    /// The number and the values that came with it, as the program `budgetorder` writes them:
    /// "8 14 1".
    #[must_use]
    pub const fn numbers(self) -> Numbers {
        Numbers(self)
    }

    /// The refusal with this number, for those that return nothing else.
    const fn plain(number: u8) -> Self {
        match number {
            1 => Self::Malformed,
            2 => Self::Length,
            3 => Self::UnknownVersion,
            4 => Self::UnknownField,
            5 => Self::RevisionZero,
            6 => Self::Clash,
            7 => Self::Output,
            9 => Self::Ordinary,
            11 => Self::NoLines,
            12 => Self::Undated,
            13 => Self::UnknownParty,
            14 => Self::Tariff,
            15 => Self::YearPart,
            16 => Self::Register,
            18 => Self::Queue,
            19 => Self::EqualArrivals,
            _ => Self::Unknown { number },
        }
    }
}

/// In words: a sentence without its full stop.
impl fmt::Display for Refusal {
    fn fmt(&self, f: &mut fmt::Formatter<'_>) -> fmt::Result {
        let number = self.number();
        match (self, words::refusal(number)) {
            (Self::Broken { field, rule }, _) => {
                write!(
                    f,
                    "rule {rule} is broken in field {}",
                    words::with_name(*field)
                )
            }
            (Self::NoFilling { count }, Some(text)) => write!(f, "{text}: there are {count}"),
            (Self::Discrepancy { difference }, Some(text)) => {
                write!(f, "{text}: the difference is {difference} kopecks")
            }
            (Self::NotTakenUp { field: field @ 1.. }, Some(text)) => {
                write!(f, "{text}: field {}", words::with_name(*field))
            }
            (Self::Unknown { .. }, _) | (_, None) => {
                write!(f, "the linked library is another one: it answers {number}")
            }
            (_, Some(text)) => f.write_str(text),
        }
    }
}

/// The number of a refusal and the values that came with it, parted by one space.
#[derive(Clone, Copy, Debug)]
pub struct Numbers(Refusal);

impl fmt::Display for Numbers {
    fn fmt(&self, f: &mut fmt::Formatter<'_>) -> fmt::Result {
        write!(f, "{}", self.0.number())?;
        match self.0 {
            Refusal::Broken { field, rule } => write!(f, " {field} {rule}"),
            Refusal::NoFilling { count } => write!(f, " {count}"),
            Refusal::Discrepancy { difference } => write!(f, " {difference}"),
            Refusal::NotTakenUp { field } => write!(f, " {field}"),
            _ => Ok(()),
        }
    }
}

impl std::error::Error for Refusal {}

// In the C answers, values that do not belong to an answer are 0. An answer
// that is otherwise is none of this library's, and so `Unknown`.

/// An answer that is a number alone.
pub fn number(answer: u8) -> Result<(), Refusal> {
    match answer {
        0 => Ok(()),
        number => Err(Refusal::plain(number)),
    }
}

impl From<ffi::Check> for Result<Class, Refusal> {
    #[inline]
    fn from(answer: ffi::Check) -> Self {
        let ffi::Check {
            number,
            field,
            rule,
            class,
        } = answer;
        match (number, field, rule, class) {
            (0, 0, 0, b'A') => Ok(Class::A),
            (0, 0, 0, b'B') => Ok(Class::B),
            (0, 0, 0, b'O') => Ok(Class::O),
            (8, field, rule, 0) => Err(Refusal::Broken { field, rule }),
            (number, 0, 0, 0) => Err(Refusal::plain(number)),
            _ => Err(Refusal::Unknown { number }),
        }
    }
}

impl From<ffi::AllBroken> for Result<BrokenRules, Refusal> {
    #[inline]
    fn from(answer: ffi::AllBroken) -> Self {
        let ffi::AllBroken { number, rules } = answer;
        match (number, rules) {
            (0, rules) => BrokenRules::new(rules).ok_or(Refusal::Unknown { number }),
            (number, 0) => Err(Refusal::plain(number)),
            _ => Err(Refusal::Unknown { number }),
        }
    }
}

impl From<ffi::Entry> for Result<Option<Entry>, Refusal> {
    #[inline]
    fn from(answer: ffi::Entry) -> Self {
        let ffi::Entry {
            number,
            length,
            first,
            second,
        } = answer;
        match (number, length, first, second) {
            (0, 0, 0, 0) => Ok(None),
            (0, 1, first, 0) => Ok(Some(Entry::One([first]))),
            (0, 2, first, second) => Ok(Some(Entry::Two([first, second]))),
            (1.., 0, 0, 0) => Err(Refusal::plain(number)),
            _ => Err(Refusal::Unknown { number }),
        }
    }
}

impl ffi::Read {
    /// The message that was read, with its text: all that stands behind the head of its
    /// version.
    pub fn message(self, message: &[u8]) -> Result<Message<'_>, Refusal> {
        let number = self.number;
        match self {
            Self { number: 0, .. } => self.known(message).ok_or(Refusal::Unknown { number }),
            Self {
                version: 0,
                party: 0,
                field: 0,
                revision: 0,
                text: 0,
                length: 0,
                ..
            } => Err(Refusal::plain(number)),
            _ => Err(Refusal::Unknown { number }),
        }
    }

    /// A message whose every value is one that reading may give.
    fn known(self, message: &[u8]) -> Option<Message<'_>> {
        let (version, party) = (Version(self.version), Party(self.party));
        let head_size = version.head_size()?;
        let text = message.get(head_size..)?;
        let known = version.carries(party)
            && FIELDS.contains(&self.field)
            && self.revision > 0
            && (self.text, self.length) == (head_size, text.len())
            && text.len() <= TEXT_MAX;
        known.then_some(Message {
            version,
            party,
            field: self.field,
            revision: self.revision,
            text,
        })
    }
}

impl ffi::Write {
    /// The size of the message of this version with a text of this length.
    pub fn size(self, version: Version, text: usize) -> Result<usize, Refusal> {
        let Self { number, length } = self;
        let size = version.head_size().map(|head_size| head_size + text);
        match (number, length) {
            (0, length) if Some(length) == size && text <= TEXT_MAX => Ok(length),
            (number, 0) => Err(Refusal::plain(number)),
            _ => Err(Refusal::Unknown { number }),
        }
    }
}

impl From<ffi::Post> for Result<Posted, Refusal> {
    #[inline]
    fn from(answer: ffi::Post) -> Self {
        let ffi::Post { number, standing } = answer;
        match (number, standing) {
            (0, b'n') => Ok(Posted::Newer),
            (0, b's') => Ok(Posted::Same),
            (0, b'o') => Ok(Posted::Older),
            (number, 0) => Err(Refusal::plain(number)),
            _ => Err(Refusal::Unknown { number }),
        }
    }
}

impl From<ffi::Pretest> for Result<Option<Broken>, Refusal> {
    #[inline]
    fn from(answer: ffi::Pretest) -> Self {
        let ffi::Pretest {
            number,
            field,
            rule,
        } = answer;
        match (number, field, rule) {
            (0, 0, 0) => Ok(None),
            (0, 1.., 1..) => Ok(Some(Broken { field, rule })),
            (8, field, rule) => Err(Refusal::Broken { field, rule }),
            (number, 0, 0) => Err(Refusal::plain(number)),
            _ => Err(Refusal::Unknown { number }),
        }
    }
}

impl From<ffi::Complete> for Result<Completed, Refusal> {
    #[inline]
    fn from(answer: ffi::Complete) -> Self {
        let ffi::Complete {
            number,
            field,
            rule,
            ones,
            set,
            count,
        } = answer;
        match (number, field, rule, ones, set, count) {
            (0, 0, 0, ones, set, count) => Ok(Completed { count, set, ones }),
            (8, field, rule, 0, 0, 0) => Err(Refusal::Broken { field, rule }),
            (10, 0, 0, 0, 0, count) => Err(Refusal::NoFilling { count }),
            (number, 0, 0, 0, 0, 0) => Err(Refusal::plain(number)),
            _ => Err(Refusal::Unknown { number }),
        }
    }
}

impl From<ffi::Quick> for Quickened {
    #[inline]
    fn from(answer: ffi::Quick) -> Self {
        let ffi::Quick { complete, skipped } = answer;
        let number = complete.number;
        let completed = complete.into();
        match (completed, skipped) {
            (Ok(_) | Err(Refusal::NoFilling { .. }), 0..=23) | (Err(_), 0) => {
                Self { completed, skipped }
            }
            _ => Self {
                completed: Err(Refusal::Unknown { number }),
                skipped: 0,
            },
        }
    }
}

impl From<ffi::TakeUp> for Result<(), Refusal> {
    #[inline]
    fn from(answer: ffi::TakeUp) -> Self {
        let ffi::TakeUp { number, field } = answer;
        match (number, field) {
            (0, 0) => Ok(()),
            (20, field) if field == 0 || FIELDS.contains(&field) => {
                Err(Refusal::NotTakenUp { field })
            }
            (number, 0) => Err(Refusal::plain(number)),
            _ => Err(Refusal::Unknown { number }),
        }
    }
}

impl From<ffi::Lines> for Result<usize, Refusal> {
    #[inline]
    fn from(answer: ffi::Lines) -> Self {
        let ffi::Lines {
            number,
            field,
            rule,
            length,
        } = answer;
        match (number, field, rule, length) {
            (0, 0, 0, 113 | 116 | 132 | LINES_BLOCK_MAX) => Ok(length),
            (8, field, rule, 0) => Err(Refusal::Broken { field, rule }),
            (number, 0, 0, 0) => Err(Refusal::plain(number)),
            _ => Err(Refusal::Unknown { number }),
        }
    }
}

impl From<ffi::Charge> for Result<u64, Refusal> {
    #[inline]
    fn from(answer: ffi::Charge) -> Self {
        let ffi::Charge { number, kopecks } = answer;
        match (number, kopecks) {
            (0, 0..=KOPECKS_MAX) => Ok(kopecks),
            (number, 0) => Err(Refusal::plain(number)),
            _ => Err(Refusal::Unknown { number }),
        }
    }
}

impl From<ffi::Part> for Result<Part, Refusal> {
    #[inline]
    fn from(answer: ffi::Part) -> Self {
        let ffi::Part {
            number,
            remainder,
            kopecks,
        } = answer;
        match (number, kopecks, remainder) {
            (0, 0..=KOPECKS_MAX, 0..=365) => Ok(Part { kopecks, remainder }),
            (number, 0, 0) => Err(Refusal::plain(number)),
            _ => Err(Refusal::Unknown { number }),
        }
    }
}

impl From<ffi::Pool> for Result<usize, Refusal> {
    #[inline]
    fn from(answer: ffi::Pool) -> Self {
        let ffi::Pool {
            number,
            lines,
            difference,
        } = answer;
        match (number, lines, difference) {
            (0, 1..=LINES_MAX, 0) => Ok(lines),
            (number, 0, 0) => Err(Refusal::plain(number)),
            (17, 0, _) => Err(Refusal::Discrepancy { difference }),
            _ => Err(Refusal::Unknown { number }),
        }
    }
}

impl From<ffi::Leave> for Result<Paid, Refusal> {
    #[inline]
    fn from(answer: ffi::Leave) -> Self {
        let ffi::Leave {
            number,
            paid,
            sum,
            left,
        } = answer;
        let covered = matches!(sum.checked_add(left), Some(0..=BALANCE_MAX));
        match (number, paid, sum, left) {
            (0, 0..=PAYMENT_PLACES, _, _) if covered => Ok(Paid {
                count: paid,
                sum,
                left,
            }),
            (number, 0, 0, 0) => Err(Refusal::plain(number)),
            _ => Err(Refusal::Unknown { number }),
        }
    }
}

#[cfg(test)]
mod tests {
    use super::*;

    #[test]
    fn numbers_are_those_of_the_table() {
        for number in (1..=7).chain([9, 11, 12, 13, 14, 15, 16, 18, 19]) {
            assert_eq!(Refusal::plain(number).number(), number);
            assert!(!matches!(Refusal::plain(number), Refusal::Unknown { .. }));
        }
        for number in [0, 8, 10, 17, 20, 255] {
            assert_eq!(Refusal::plain(number), Refusal::Unknown { number });
        }
        let broken = Refusal::Broken {
            field: 109,
            rule: 34,
        };
        assert_eq!(
            (broken.number(), broken.numbers().to_string().as_str()),
            (8, "8 109 34")
        );
        let none = Refusal::NoFilling { count: 1056 };
        assert_eq!(
            (none.number(), none.numbers().to_string().as_str()),
            (10, "10 1056")
        );
        assert_eq!(Refusal::NoLines.numbers().to_string(), "11");
        assert_eq!(Refusal::Undated.numbers().to_string(), "12");
        assert_eq!(Refusal::UnknownParty.numbers().to_string(), "13");
        assert_eq!(Refusal::Tariff.numbers().to_string(), "14");
        assert_eq!(Refusal::YearPart.numbers().to_string(), "15");
        assert_eq!(Refusal::Register.numbers().to_string(), "16");
        let less = Refusal::Discrepancy { difference: -1 };
        assert_eq!(
            (less.number(), less.numbers().to_string().as_str()),
            (17, "17 -1")
        );
        assert_eq!(Refusal::Queue.numbers().to_string(), "18");
        assert_eq!(Refusal::EqualArrivals.numbers().to_string(), "19");
        let status = Refusal::NotTakenUp { field: 101 };
        assert_eq!(
            (status.number(), status.numbers().to_string().as_str()),
            (20, "20 101")
        );
    }

    /// What reading answers of a message of the client's, text "08" from place 9 on.
    const READ: ffi::Read = ffi::Read {
        number: 0,
        version: 2,
        party: 1,
        field: 101,
        revision: 2,
        text: 9,
        length: 2,
    };

    const OF_THE_CLIENT: &[u8; 11] = b"\0\x09\x02\x01\x65\0\0\0\x0208";
    const OF_THE_ADVISER: &[u8; 10] = b"\0\x08\x01\x65\0\0\0\x0208";

    #[test]
    fn a_text_is_what_stands_behind_the_head() {
        let read = |answer: ffi::Read| {
            let message = answer.message(OF_THE_CLIENT);
            message.map(|message| message.text)
        };
        assert_eq!(read(READ), Ok(&b"08"[..]));
        for (text, length) in [(9, 3), (9, 1), (8, 3), (10, 1), (11, 0), (9, usize::MAX)] {
            let answer = ffi::Read {
                text,
                length,
                ..READ
            };
            assert_eq!(read(answer), Err(Refusal::Unknown { number: 0 }));
        }
        let long = [&OF_THE_CLIENT[..9], &[b'7'; 26]].concat();
        let answer = ffi::Read { length: 26, ..READ };
        assert_eq!(answer.message(&long), Err(Refusal::Unknown { number: 0 }));
        assert!(READ.message(&long[..8]).is_err());
    }

    #[test]
    fn versions_and_parties_that_are_known() {
        let read = |version, party| {
            let answer = ffi::Read {
                version,
                party,
                ..READ
            };
            let of_version_1 = ffi::Read { text: 8, ..answer };
            let first = of_version_1.message(OF_THE_ADVISER);
            let second = answer.message(OF_THE_CLIENT);
            first
                .or(second)
                .map(|message| (message.version, message.party))
        };
        let known = [
            ((1, 2), (Version::ONE, Party::ADVISER)),
            ((2, 1), (Version::TWO, Party::CLIENT)),
            ((2, 2), (Version::TWO, Party::ADVISER)),
        ];
        for version in 0..=u8::MAX {
            for party in 0..=u8::MAX {
                let expected = known.iter().find(|(key, _)| *key == (version, party));
                let expected = expected.map(|(_, known)| *known);
                let expected = expected.ok_or(Refusal::Unknown { number: 0 });
                assert_eq!(read(version, party), expected, "{version} {party}");
            }
        }
    }

    #[test]
    fn what_else_is_read() {
        let read = |answer: ffi::Read| {
            let message = answer.message(OF_THE_CLIENT);
            message.map(|message| (message.field, message.revision))
        };
        assert_eq!(read(READ), Ok((101, 2)));
        for answer in [
            ffi::Read { field: 0, ..READ },
            ffi::Read { field: 16, ..READ },
            ffi::Read {
                revision: 0,
                ..READ
            },
        ] {
            assert_eq!(read(answer), Err(Refusal::Unknown { number: 0 }));
        }
    }

    #[test]
    fn a_refused_message_has_nothing_else() {
        const REFUSED: ffi::Read = ffi::Read {
            number: 13,
            version: 0,
            party: 0,
            field: 0,
            revision: 0,
            text: 0,
            length: 0,
        };
        let read = |answer: ffi::Read| answer.message(OF_THE_CLIENT).err();
        assert_eq!(read(REFUSED), Some(Refusal::UnknownParty));
        let (number, length) = (2, 2);
        let short = ffi::Read { number, ..REFUSED };
        assert_eq!(read(short), Some(Refusal::Length));
        for answer in [
            ffi::Read {
                version: 2,
                ..short
            },
            ffi::Read { party: 1, ..short },
            ffi::Read { field: 14, ..short },
            ffi::Read {
                revision: 1,
                ..short
            },
            ffi::Read { text: 9, ..short },
            ffi::Read { length, ..short },
        ] {
            assert_eq!(read(answer), Some(Refusal::Unknown { number }));
        }
    }

    #[test]
    fn a_written_message_has_the_size_of_its_version() {
        let size = |version, number, length, text| {
            ffi::Write { number, length }.size(Version(version), text)
        };
        for (version, length, text) in [(1, 8, 0), (1, 33, 25), (2, 9, 0), (2, 34, 25)] {
            assert_eq!(size(version, 0, length, text), Ok(length));
        }
        assert_eq!(size(1, 13, 0, 2), Err(Refusal::UnknownParty));
        assert_eq!(size(3, 3, 0, 2), Err(Refusal::UnknownVersion));
        for (version, number, length, text) in [
            (1, 0, 0, 0),
            (1, 0, 9, 0),
            (2, 0, 8, 0),
            (1, 0, 34, 26),
            (2, 0, 35, 26),
            (0, 0, 8, 0),
            (3, 0, 9, 0),
            (2, 13, 9, 0),
        ] {
            let unknown = Err(Refusal::Unknown { number });
            assert_eq!(size(version, number, length, text), unknown);
        }
    }

    #[test]
    fn a_pretest_names_a_rule_with_its_field_or_none() {
        let pretest = |number, field, rule| {
            Result::<Option<Broken>, Refusal>::from(ffi::Pretest {
                number,
                field,
                rule,
            })
        };
        let (field, rule) = (104, 28);
        assert_eq!(pretest(0, 0, 0), Ok(None));
        assert_eq!(pretest(0, field, rule), Ok(Some(Broken { field, rule })));
        let (field, rule) = (14, 1);
        assert_eq!(
            pretest(8, field, rule),
            Err(Refusal::Broken { field, rule })
        );
        assert_eq!(pretest(1, 0, 0), Err(Refusal::Malformed));
        assert_eq!(pretest(9, 0, 0), Err(Refusal::Ordinary));
        for (number, field, rule) in [(0, 0, 6), (0, 61, 0), (1, 14, 0), (9, 0, 1), (10, 0, 0)] {
            assert_eq!(
                pretest(number, field, rule),
                Err(Refusal::Unknown { number })
            );
        }
    }

    #[test]
    fn statuses_are_skipped_with_a_sheet_or_10() {
        let quick = |number, count, skipped| {
            let complete = ffi::Complete {
                number,
                field: 0,
                rule: 0,
                set: 0,
                ones: 0,
                count,
            };
            let quickened = Quickened::from(ffi::Quick { complete, skipped });
            let counted = quickened.completed.map(|completed| completed.count);
            (counted, quickened.skipped)
        };
        for skipped in [0, 1, 23] {
            assert_eq!(quick(0, 97, skipped), (Ok(97), skipped));
            let none = Err(Refusal::NoFilling { count: 1104 });
            assert_eq!(quick(10, 1104, skipped), (none, skipped));
        }
        assert_eq!(quick(9, 0, 0), (Err(Refusal::Ordinary), 0));
        for (number, count, skipped) in [(0, 97, 24), (10, 1104, 24), (9, 0, 1), (9, 1, 0)] {
            let unknown = Err(Refusal::Unknown { number });
            assert_eq!(quick(number, count, skipped), (unknown, 0));
        }
    }

    #[test]
    fn values_are_taken_up_or_20_names_a_field() {
        let take_up = |number, field| Result::<(), Refusal>::from(ffi::TakeUp { number, field });
        assert_eq!(take_up(0, 0), Ok(()));
        assert_eq!(take_up(1, 0), Err(Refusal::Malformed));
        assert_eq!(take_up(7, 0), Err(Refusal::Output));
        for field in FIELDS.into_iter().chain([0]) {
            assert_eq!(take_up(20, field), Err(Refusal::NotTakenUp { field }));
        }
        for (number, field) in [(0, 14), (1, 101), (7, 14), (20, 16), (20, 255), (21, 0)] {
            assert_eq!(take_up(number, field), Err(Refusal::Unknown { number }));
        }
    }

    #[test]
    fn lines_have_one_of_four_lengths() {
        let written = |number, field, rule, length| {
            Result::<usize, Refusal>::from(ffi::Lines {
                number,
                field,
                rule,
                length,
            })
        };
        for length in [113, 116, 132, 137] {
            assert_eq!(written(0, 0, 0, length), Ok(length));
        }
        let (field, rule) = (61, 9);
        let broken = Refusal::Broken { field, rule };
        assert_eq!(written(8, field, rule, 0), Err(broken));
        for refusal in [
            Refusal::Malformed,
            Refusal::Undated,
            Refusal::NoLines,
            Refusal::Output,
        ] {
            assert_eq!(written(refusal.number(), 0, 0, 0), Err(refusal));
        }
        for (number, field, rule, length) in [
            (0, 0, 0, 0),
            (0, 0, 0, 112),
            (0, 0, 0, 138),
            (0, 61, 9, 113),
            (8, 61, 9, 113),
            (11, 0, 0, 113),
            (12, 0, 1, 0),
            (20, 0, 0, 0),
        ] {
            let unknown = Err(Refusal::Unknown { number });
            assert_eq!(written(number, field, rule, length), unknown);
        }
    }

    #[test]
    fn a_charge_is_kopecks_or_14() {
        let charge =
            |number, kopecks| Result::<u64, Refusal>::from(ffi::Charge { number, kopecks });
        for kopecks in [0, 1, KOPECKS_MAX] {
            assert_eq!(charge(0, kopecks), Ok(kopecks));
        }
        assert_eq!(charge(14, 0), Err(Refusal::Tariff));
        for (number, kopecks) in [(0, KOPECKS_MAX + 1), (14, 1), (20, 0)] {
            assert_eq!(charge(number, kopecks), Err(Refusal::Unknown { number }));
        }
    }

    #[test]
    fn a_part_is_kopecks_with_a_remainder_or_15() {
        let part = |number, kopecks, remainder| {
            Result::<Part, Refusal>::from(ffi::Part {
                number,
                remainder,
                kopecks,
            })
        };
        for (kopecks, remainder) in [(0, 1), (84, 340), (KOPECKS_MAX, 0), (1, 365)] {
            assert_eq!(part(0, kopecks, remainder), Ok(Part { kopecks, remainder }));
        }
        assert_eq!(part(15, 0, 0), Err(Refusal::YearPart));
        for (number, kopecks, remainder) in [
            (0, KOPECKS_MAX + 1, 0),
            (0, 0, 366),
            (15, 1, 0),
            (15, 0, 1),
            (20, 0, 0),
        ] {
            assert_eq!(
                part(number, kopecks, remainder),
                Err(Refusal::Unknown { number })
            );
        }
    }

    #[test]
    fn pooled_lines_or_7_or_16_or_17_with_the_difference() {
        let pool = |number, lines, difference| {
            Result::<usize, Refusal>::from(ffi::Pool {
                number,
                lines,
                difference,
            })
        };
        for lines in [1, 2, LINES_MAX] {
            assert_eq!(pool(0, lines, 0), Ok(lines));
        }
        assert_eq!(pool(7, 0, 0), Err(Refusal::Output));
        assert_eq!(pool(16, 0, 0), Err(Refusal::Register));
        for difference in [-1, 1, i64::MIN, i64::MAX] {
            let expected = Refusal::Discrepancy { difference };
            assert_eq!(pool(17, 0, difference), Err(expected));
        }
        for (number, lines, difference) in [
            (0, 0, 0),
            (0, LINES_MAX + 1, 0),
            (0, 1, 1),
            (7, 1, 0),
            (16, 0, -1),
            (17, 0, 0),
            (17, 1, 1),
            (20, 0, 0),
        ] {
            assert_eq!(
                pool(number, lines, difference),
                Err(Refusal::Unknown { number })
            );
        }
    }

    #[test]
    fn paid_payments_or_18_or_19() {
        let leave = |number, paid, sum, left| {
            Result::<Paid, Refusal>::from(ffi::Leave {
                number,
                paid,
                sum,
                left,
            })
        };
        for (count, sum, left) in [
            (0, 0, 0),
            (0, 0, BALANCE_MAX),
            (2, 10, 0),
            (PAYMENT_PLACES, 1, BALANCE_MAX - 1),
        ] {
            assert_eq!(leave(0, count, sum, left), Ok(Paid { count, sum, left }));
        }
        assert_eq!(leave(18, 0, 0, 0), Err(Refusal::Queue));
        assert_eq!(leave(19, 0, 0, 0), Err(Refusal::EqualArrivals));
        for (number, paid, sum, left) in [
            (0, PAYMENT_PLACES + 1, 0, 0),
            (0, 1, 1, BALANCE_MAX),
            (0, 1, 1, u64::MAX),
            (18, 1, 0, 0),
            (18, 0, 1, 0),
            (19, 0, 0, 1),
            (20, 0, 0, 0),
        ] {
            assert_eq!(
                leave(number, paid, sum, left),
                Err(Refusal::Unknown { number })
            );
        }
    }

    #[test]
    fn entries_of_one_or_two_bytes_or_none() {
        let entry = |number, length, first, second| {
            Result::<Option<Entry>, Refusal>::from(ffi::Entry {
                number,
                length,
                first,
                second,
            })
        };
        assert_eq!(entry(0, 0, 0, 0), Ok(None));
        assert_eq!(entry(0, 1, b'0', 0), Ok(Some(Entry::One(*b"0"))));
        assert_eq!(entry(0, 2, b'0', b'1'), Ok(Some(Entry::Two(*b"01"))));
        assert_eq!(entry(12, 0, 0, 0), Err(Refusal::Undated));
        assert_eq!(entry(4, 0, 0, 0), Err(Refusal::UnknownField));
        for (number, length, first, second) in [
            (0, 0, b'0', 0),
            (0, 0, 0, b'0'),
            (0, 1, b'0', b'0'),
            (0, 3, b'0', b'0'),
            (4, 1, 0, 0),
            (12, 0, b'0', 0),
        ] {
            let expected = Err(Refusal::Unknown { number });
            assert_eq!(entry(number, length, first, second), expected);
        }
    }

    #[test]
    fn strange_answers_are_unknown() {
        let check = |number, field, rule, class| {
            Result::<Class, Refusal>::from(ffi::Check {
                number,
                field,
                rule,
                class,
            })
        };
        assert_eq!(check(0, 0, 0, b'C'), Err(Refusal::Unknown { number: 0 }));
        assert_eq!(check(0, 14, 1, b'A'), Err(Refusal::Unknown { number: 0 }));
        assert_eq!(check(1, 14, 0, 0), Err(Refusal::Unknown { number: 1 }));
        assert_eq!(check(0, 0, 0, 0), Err(Refusal::Unknown { number: 0 }));
        assert_eq!(check(12, 0, 0, b'A'), Err(Refusal::Unknown { number: 12 }));
        assert_eq!(check(12, 0, 0, 0), Err(Refusal::Undated));
        let posted: Result<Posted, Refusal> = ffi::Post {
            number: 6,
            standing: b'n',
        }
        .into();
        assert_eq!(posted, Err(Refusal::Unknown { number: 6 }));
    }
}

//! "The order's date chooses the rules."

use crate::refusal::Refusal;

/// A date "as a number YYYYMMDD".
#[derive(Clone, Copy, Debug, PartialEq, Eq, PartialOrd, Ord, Hash)]
pub struct Date(pub u32);

/// Error 12: "an order date before 20230925".
const EARLIEST: Date = Date(20_230_925);

impl Date {
    /// Not "no Gregorian date of the years 1900 to 2099".
    fn is_gregorian(self) -> bool {
        let Self(number) = self;
        is_gregorian(number % 100, number / 100 % 100, number / 10_000)
    }
}

/// "A record of three dates".
#[derive(Clone, Copy, Debug, PartialEq, Eq, Hash)]
pub struct Record {
    /// "The first for status 32".
    pub first32: Date,
    /// "The first for status 33".
    pub first33: Date,
    /// "The last for status 02".
    pub last02: Date,
}

impl Record {
    /// "The three dates given here": 20231001, 20240101 and 20231231.
    pub const GIVEN: Self = Self {
        first32: Date(20_231_001),
        first33: Date(20_240_101),
        last02: Date(20_231_231),
    };

    /// Whether "the date allows" a status of the paper or 02.
    pub(crate) fn allows(&self, date: Date, status: &[u8]) -> bool {
        match status {
            b"02" => date <= self.last02,
            b"32" => date >= self.first32,
            b"33" => date >= self.first33,
            _ => true,
        }
    }

    /// No "record entry that is no Gregorian date of the years 1900 to 2099".
    fn is_gregorian(&self) -> bool {
        [self.first32, self.first33, self.last02]
            .into_iter()
            .all(Date::is_gregorian)
    }
}

/// An order date and a record "that error 12 doesn't refuse, together".
#[derive(Clone, Copy)]
pub(crate) struct Dates {
    date: Date,
    record: Record,
}

impl Dates {
    /// Refusal 12 "for an order date or record entry that is no Gregorian date of
    /// the years 1900 to 2099, or an order date before 20230925".
    pub(crate) fn new(date: Date, record: Record) -> Result<Self, Refusal> {
        if date.is_gregorian() && date >= EARLIEST && record.is_gregorian() {
            Ok(Self { date, record })
        } else {
            Err(Refusal::Undated)
        }
    }

    /// Whether "the date allows" a status of the paper or 02.
    pub(crate) fn allow(&self, status: &[u8]) -> bool {
        self.record.allows(self.date, status)
    }
}

/// "A Gregorian date of the years 1900 to 2099", in rule 18 and error 12.
pub(crate) fn is_gregorian(day: u32, month: u32, year: u32) -> bool {
    (1900..=2099).contains(&year) && (1..=month_length(month, year)).contains(&day)
}

/// The days of a Gregorian month; 0 if there is no such month.
const fn month_length(month: u32, year: u32) -> u32 {
    match month {
        1 | 3 | 5 | 7 | 8 | 10 | 12 => 31,
        4 | 6 | 9 | 11 => 30,
        2 if is_leap(year) => 29,
        2 => 28,
        _ => 0,
    }
}

const fn is_leap(year: u32) -> bool {
    year.is_multiple_of(4) && (!year.is_multiple_of(100) || year.is_multiple_of(400))
}

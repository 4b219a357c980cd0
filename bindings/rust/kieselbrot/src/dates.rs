//! The order's date, and the record of three dates that says which statuses it allows.

use std::fmt;

/// A date as a number YYYYMMDD: `Date(20240115)` is 15 January 2024.
///
/// Any number may be given; [`Refusal::Undated`](crate::Refusal::Undated) refuses those
/// that are no date.
///
/// ```
/// use kieselbrot::Date;
///
/// let date = Date(20240115);
/// assert_eq!((date.year(), date.month(), date.day()), (2024, 1, 15));
/// assert_eq!(date.to_string(), "2024-01-15");
/// assert_eq!(Date::of(2024, 1, 15), date);
/// ```
#[repr(transparent)]
#[derive(Clone, Copy, Debug, PartialEq, Eq, Hash, PartialOrd, Ord)]
pub struct Date(pub u32);

impl Date {
    /// The date with this year, month and day, if these have at most four, two and two digits.
    #[must_use]
    pub const fn of(year: u16, month: u8, day: u8) -> Self {
        Self(year as u32 * 10_000 + month as u32 * 100 + day as u32)
    }

    /// The year.
    #[must_use]
    pub const fn year(self) -> u32 {
        self.0 / 10_000
    }

    /// The month, from 1.
    #[must_use]
    pub const fn month(self) -> u32 {
        self.0 / 100 % 100
    }

    /// The day, from 1.
    #[must_use]
    pub const fn day(self) -> u32 {
        self.0 % 100
    }
}

/// YYYY-MM-DD.
impl fmt::Display for Date {
    fn fmt(&self, f: &mut fmt::Formatter<'_>) -> fmt::Result {
        write!(
            f,
            "{:04}-{:02}-{:02}",
            self.year(),
            self.month(),
            self.day()
        )
    }
}

/// A record of three dates, in any relation to each other. A date that equals an entry is
/// allowed.
#[repr(C)]
#[derive(Clone, Copy, Debug, PartialEq, Eq, Hash)]
pub struct Record {
    /// The first date for status 32.
    pub first32: Date,
    /// The first date for status 33.
    pub first33: Date,
    /// The last date for status 02.
    pub last02: Date,
}

impl Record {
    /// The record that R-7 gives.
    pub const GIVEN: Self = Self {
        first32: Date(20231001),
        first33: Date(20240101),
        last02: Date(20231231),
    };
}

/// The terms of an order, by which statuses are allowed: its date, and the record.
///
/// ```
/// use kieselbrot::{Date, Record, Terms};
///
/// let terms = Terms::given(Date(20240115));
/// assert_eq!(terms, Terms::new(Date(20240115), Record::GIVEN));
/// ```
#[derive(Clone, Copy, Debug, PartialEq, Eq, Hash)]
pub struct Terms {
    /// The order's date.
    pub date: Date,
    /// The dates of statuses 32, 33 and 02.
    pub record: Record,
}

impl Terms {
    /// The terms of an order with this date by this record.
    #[must_use]
    pub const fn new(date: Date, record: Record) -> Self {
        Self { date, record }
    }

    /// The terms of an order with this date by the record that R-7 gives.
    #[must_use]
    pub const fn given(date: Date) -> Self {
        Self::new(date, Record::GIVEN)
    }
}

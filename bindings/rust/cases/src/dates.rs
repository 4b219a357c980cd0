//! The date of an order and a record of three dates, as numbers YYYYMMDD.

use crate::random::Random;

/// The earliest date of an order.
pub const ORDER_DATE_MIN: u32 = 20230925;

/// The first and the last day of the years 1900 to 2099.
const FIRST_DAY: u32 = 19000101;
const LAST_DAY: u32 = 20991231;

/// The statuses that some date allows, in ascending order.
pub const ALL_STATUSES: [&str; 23] = [
    "01", "02", "03", "04", "05", "06", "07", "08", "13", "15", "16", "17", "19", "20", "23", "24",
    "27", "28", "29", "30", "31", "32", "33",
];

/// Rule 10's statuses in document 01, which the program's dates allow: all but 02.
pub const STATUSES: [&str; 22] = {
    let mut statuses = [ALL_STATUSES[0]; 22];
    let mut place = 1;
    while place < statuses.len() {
        statuses[place] = ALL_STATUSES[place + 1];
        place += 1;
    }
    statuses
};

/// What a check and a completion are asked at.
#[derive(Clone, Copy, Debug, PartialEq, Eq)]
pub struct Dates {
    /// The order's date.
    pub order: u32,
    /// The record's first date for status 32.
    pub first32: u32,
    /// The record's first date for status 33.
    pub first33: u32,
    /// The record's last date for status 02.
    pub last02: u32,
}

impl Dates {
    /// Those of the program `budgetorder`, with the record that R-7 gives.
    pub const PROGRAM: Self = Self {
        order: 20240101,
        first32: 20231001,
        first33: 20240101,
        last02: 20231231,
    };

    /// Another order's date with the record that R-7 gives.
    #[must_use]
    pub const fn given(order: u32) -> Self {
        Self {
            order,
            ..Self::PROGRAM
        }
    }

    /// The same order's date with a record that allows these of 02, 32 and 33, and no
    /// other of the three: what is allowed by the end that counts.
    #[must_use]
    pub fn allowing(self, [s02, s32, s33]: [bool; 3]) -> Self {
        let entry = |allowed, off: fn(u32) -> u32| match allowed {
            true => self.order,
            false => off(self.order),
        };
        self.with_entries([
            entry(s32, day_after),
            entry(s33, day_after),
            entry(s02, day_before),
        ])
    }

    /// Whether 02, 32 and 33 are allowed.
    #[must_use]
    pub const fn allowed(&self) -> [bool; 3] {
        [
            self.order <= self.last02,
            self.first32 <= self.order,
            self.first33 <= self.order,
        ]
    }

    /// The statuses that are allowed, in ascending order.
    #[must_use]
    pub fn statuses(&self) -> Vec<&'static str> {
        let [s02, s32, s33] = self.allowed();
        let allowed = |status: &&str| match *status {
            "02" => s02,
            "32" => s32,
            "33" => s33,
            _ => true,
        };
        ALL_STATUSES.into_iter().filter(allowed).collect()
    }

    /// The same order's date with a record of these entries.
    #[must_use]
    pub const fn with_entries(self, [first32, first33, last02]: [u32; 3]) -> Self {
        Self {
            order: self.order,
            first32,
            first33,
            last02,
        }
    }

    /// The same with one entry changed, counted from 0.
    #[must_use]
    pub fn with_entry(self, place: usize, date: u32) -> Self {
        let mut entries = self.entries();
        entries[place] = date;
        self.with_entries(entries)
    }

    /// The record's entries, in its order.
    #[must_use]
    pub const fn entries(&self) -> [u32; 3] {
        [self.first32, self.first33, self.last02]
    }

    /// Whether error 12 does not refuse them.
    #[must_use]
    pub fn fit(&self) -> bool {
        let days = self.entries().into_iter().all(is_day);
        days && is_day(self.order) && self.order >= ORDER_DATE_MIN
    }
}

/// All that may be allowed of 02, 32 and 33: the eight lists.
pub const LISTS: [[bool; 3]; 8] = {
    let mut lists = [[false; 3]; 8];
    let mut number = 0;
    while number < lists.len() {
        lists[number] = [number & 1 != 0, number & 2 != 0, number & 4 != 0];
        number += 1;
    }
    lists
};

/// Whether a number is a Gregorian date of the years 1900 to 2099.
#[must_use]
pub const fn is_day(number: u32) -> bool {
    let (year, month, day) = (number / 10_000, number / 100 % 100, number % 100);
    let leap = year.is_multiple_of(4) && (!year.is_multiple_of(100) || year.is_multiple_of(400));
    let last = match month {
        2 if leap => 29,
        2 => 28,
        4 | 6 | 9 | 11 => 30,
        1..=12 => 31,
        _ => 0,
    };
    1900 <= year && year <= 2099 && 1 <= day && day <= last
}

/// The day after a date; the last day is its own.
#[must_use]
pub fn day_after(date: u32) -> u32 {
    let mut later = date + 1..=LAST_DAY;
    later.find(|&number| is_day(number)).unwrap_or(date)
}

/// The day before a date; the first day is its own.
#[must_use]
pub fn day_before(date: u32) -> u32 {
    let mut earlier = (FIRST_DAY..date).rev();
    earlier.find(|&number| is_day(number)).unwrap_or(date)
}

/// Any date of these years.
fn day(random: &mut Random, years: std::ops::RangeInclusive<u32>) -> u32 {
    let count = (years.end() - years.start() + 1) as usize;
    let year = years.start() + random.below(count) as u32;
    let (month, day) = (1 + random.below(12) as u32, 1 + random.below(31) as u32);
    let number = year * 10_000 + month * 100 + day;
    // The days that a month has not are three or less.
    (0..=3)
        .map(|less| number - less)
        .find(|&number| is_day(number))
        .unwrap_or(number)
}

/// Dates of orders that matter: the earliest, the last, those about the given record's.
const ORDERS: [u32; 10] = [
    ORDER_DATE_MIN,
    20230926,
    20230930,
    20231001,
    20231015,
    20231231,
    20240101,
    20240229,
    20991230,
    LAST_DAY,
];

/// An order's date that error 12 does not refuse.
fn order(random: &mut Random) -> u32 {
    match random.percent(70) {
        true => random.pick(&ORDERS),
        false => day(random, 2023..=2099).max(ORDER_DATE_MIN),
    }
}

/// A record's entry for an order of this date: the same day, a day off, or any.
fn entry(random: &mut Random, order: u32) -> u32 {
    match random.below(8) {
        0 | 1 => order,
        2 => day_after(order),
        3 => day_before(order),
        4 => random.pick(&[FIRST_DAY, 20000229, 20230924, ORDER_DATE_MIN, LAST_DAY]),
        5 => random.pick(&Dates::PROGRAM.entries()),
        _ => day(random, 1900..=2099),
    }
}

/// Dates that error 12 does not refuse: the given record or any other, at its ends, a day
/// off and elsewhere.
pub fn fit_dates(random: &mut Random) -> Dates {
    let order = order(random);
    if random.percent(25) {
        return Dates::given(order);
    }
    Dates::given(order).with_entries([(); 3].map(|()| entry(random, order)))
}

/// Dates that error 12 refuses: one of them wrong, or all.
pub fn refused_dates(random: &mut Random) -> Dates {
    let mut dates = fit_dates(random);
    match random.below(6) {
        0 => dates.order = early(random),
        1 => dates.order = no_day(random),
        2..5 => dates = dates.with_entry(random.below(3), no_day(random)),
        _ => {
            let order = random.pick(&[early, no_day])(random);
            dates = Dates::given(order).with_entries([(); 3].map(|()| no_day(random)));
        }
    }
    dates
}

/// A day before the earliest date of an order.
fn early(random: &mut Random) -> u32 {
    let day = day(random, 1900..=2022);
    random.pick(&[day_before(ORDER_DATE_MIN), 20230831, FIRST_DAY, day])
}

/// Numbers that are no day: in years, months and days beyond the ends, of other lengths.
pub const NO_DAYS: [u32; 17] = [
    0,
    1,
    18991231,
    19000229,
    20230229,
    20230931,
    20231000,
    20231032,
    20231131,
    20231232,
    20230015,
    20231315,
    21000101,
    2023101,
    202310150,
    1 << 31,
    u32::MAX,
];

/// A number that is no day.
fn no_day(random: &mut Random) -> u32 {
    loop {
        let number = match random.below(3) {
            0 => random.pick(&NO_DAYS),
            1 => 18990000 + random.below(2_020_000) as u32,
            _ => random.number() as u32,
        };
        if !is_day(number) {
            return number;
        }
    }
}

#[cfg(test)]
mod tests {
    use super::*;

    #[test]
    fn days_of_two_hundred_years() {
        // 49 of the years have 29 February: 2000 has, 1900 has not.
        let days = (0..=30_000_000).filter(|&number| is_day(number));
        assert_eq!(days.count(), 200 * 365 + 49);
        assert!(!NO_DAYS.into_iter().any(is_day));
        assert_eq!(day_after(20231231), 20240101);
        assert_eq!(day_before(20240301), 20240229);
        assert_eq!(day_after(LAST_DAY), LAST_DAY);
        assert_eq!(day_before(FIRST_DAY), FIRST_DAY);
    }

    #[test]
    fn entries_in_their_order() {
        let dates = Dates::given(1).with_entries([2, 3, 4]);
        assert_eq!((dates.first32, dates.first33, dates.last02), (2, 3, 4));
        assert_eq!(dates.with_entry(2, 5).entries(), [2, 3, 5]);
    }

    #[test]
    fn the_lists_are_eight() {
        let mut lengths = [0; 24];
        for (number, list) in LISTS.into_iter().enumerate() {
            let dates = Dates::given(20231015).allowing(list);
            assert!(dates.fit() && dates.allowed() == list, "{dates:?}");
            assert!(!LISTS[..number].contains(&list));
            lengths[dates.statuses().len()] += 1;
        }
        assert_eq!(lengths[20..], [1, 3, 3, 1]);
        assert_eq!(Dates::PROGRAM.statuses(), STATUSES);
    }

    #[test]
    fn generated_dates_fit_or_are_refused() {
        let random = &mut Random::new(7);
        for _ in 0..10_000 {
            let (fit, refused) = (fit_dates(random), refused_dates(random));
            assert!(fit.fit(), "{fit:?}");
            assert!(!refused.fit(), "{refused:?}");
        }
    }
}

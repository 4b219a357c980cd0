//! What the arguments of shares are, and what became of them.

use std::fmt;

use cases::{Sharing, KOPECKS_MAX, SHARE_PLACES, YEARS};
use kieselbrot::Refusal;

use crate::charges::{Value, VALUES};

/// What a sharing reached.
#[derive(Clone, Copy, Debug, PartialEq, Eq, PartialOrd, Ord)]
pub enum Shared {
    /// The amount had this value: in shares that were made if it is in range, and
    /// otherwise in some that were refused for it alone.
    Amount(Value),
    /// The same of the year's length.
    Year(u32),
    /// The same of how many periods there were. Without one, there is no sum either.
    Periods(usize),
    MorePeriods,
    /// One period was of 0 days, which alone was refused.
    NoDays(Place),
    /// The sum was not the year, which alone was refused.
    Sum(Sum),
    /// Twelve periods and the other arguments are the highest numbers.
    AllHighest,
    /// The first share is 0; one behind a share that is not.
    NothingFirst,
    NothingAmid,
    /// The days up to a period ahead of the last leave no remainder; they leave some.
    Exact,
    Left,
    /// A share is not the part for its period's days alone.
    Carried,
    /// Places past the last period held something.
    Cleared,
    /// A refusal left places that held something.
    Kept,
}

/// Where a period, a line or a payment stands.
#[derive(Clone, Copy, Debug, PartialEq, Eq, PartialOrd, Ord)]
pub enum Place {
    First,
    Middle,
    Last,
}

/// What a sum is that is not the year.
#[derive(Clone, Copy, Debug, PartialEq, Eq, PartialOrd, Ord)]
pub enum Sum {
    Below,
    OneBelow,
    OneAbove,
    Above,
    /// The year and 2^32; the same with a period of 2^32 - 1.
    Wraps,
    WrapsByTheHighest,
    /// The year and a multiple of 2^32.
    WrapsAgain,
}

/// The lengths of a year that must be reached.
const LENGTHS: [u32; 5] = [364, 365, 366, 367, u32::MAX];

/// All of them.
pub const PLACES: [Place; 3] = [Place::First, Place::Middle, Place::Last];

const SUMS: [Sum; 7] = [
    Sum::Below,
    Sum::OneBelow,
    Sum::OneAbove,
    Sum::Above,
    Sum::Wraps,
    Sum::WrapsByTheHighest,
    Sum::WrapsAgain,
];

const OTHERS: [Shared; 9] = [
    Shared::MorePeriods,
    Shared::AllHighest,
    Shared::NothingFirst,
    Shared::NothingAmid,
    Shared::Exact,
    Shared::Left,
    Shared::Carried,
    Shared::Cleared,
    Shared::Kept,
];

/// All that must be reached.
pub fn all() -> impl Iterator<Item = Shared> {
    let amounts = VALUES.into_iter().map(Shared::Amount);
    amounts
        .chain(LENGTHS.map(Shared::Year))
        .chain((0..=SHARE_PLACES + 1).map(Shared::Periods))
        .chain(PLACES.map(Shared::NoDays))
        .chain(SUMS.map(Shared::Sum))
        .chain(OTHERS)
}

impl Place {
    /// What a place is, of so many.
    pub const fn of(place: usize, count: usize) -> Self {
        match place {
            0 => Self::First,
            _ if place + 1 == count => Self::Last,
            _ => Self::Middle,
        }
    }
}

impl fmt::Display for Shared {
    fn fmt(&self, f: &mut fmt::Formatter<'_>) -> fmt::Result {
        match self {
            Self::Amount(value) => write!(f, "amount {value:?}"),
            Self::Year(year) => write!(f, "year {year}"),
            Self::Periods(count) => write!(f, "{count} periods"),
            Self::NoDays(place) => write!(f, "a period of 0 days {place:?}"),
            Self::Sum(sum) => write!(f, "a sum {sum:?}"),
            other => write!(f, "{other:?}"),
        }
    }
}

/// What a sharing reached, by its arguments, by what the places held before, and by the
/// shares if they were made.
pub fn reached(
    sharing: &Sharing,
    before: &[u64; SHARE_PLACES],
    answer: Result<[u64; SHARE_PLACES], Refusal>,
) -> Vec<Shared> {
    match answer {
        Ok(shares) => {
            let mut reached = vec![
                amount(sharing),
                Shared::Year(sharing.year),
                Shared::Periods(sharing.periods.len()),
            ];
            reached.extend(made(sharing, before, &shares));
            reached
        }
        Err(_) => {
            let kept = before.iter().any(|&held| held != 0).then_some(Shared::Kept);
            kept.into_iter().chain(cause(sharing)).collect()
        }
    }
}

fn amount(sharing: &Sharing) -> Shared {
    Shared::Amount(Value::of(sharing.amount, KOPECKS_MAX, u64::MAX))
}

/// The cause of a refusal, if there is one alone.
fn cause(sharing: &Sharing) -> Option<Shared> {
    let Sharing {
        amount: kopecks,
        year,
        ref periods,
    } = *sharing;
    let count = periods.len();
    let amount_good = (1..=KOPECKS_MAX).contains(&kopecks);
    let year_good = YEARS.contains(&year);
    let count_good = (1..=SHARE_PLACES).contains(&count);
    let zeros = periods.iter().filter(|&&days| days == 0).count();
    let sum_good = sharing.days() == u64::from(year);
    let causes = [
        amount_good,
        year_good,
        count_good,
        zeros == 0,
        // No periods have a sum of 0.
        sum_good || count == 0,
    ];
    match causes {
        [false, true, true, true, true] => Some(amount(sharing)),
        [true, false, true, true, true] => LENGTHS.contains(&year).then_some(Shared::Year(year)),
        [true, true, false, true, true] if count > SHARE_PLACES + 1 => Some(Shared::MorePeriods),
        [true, true, false, true, true] => Some(Shared::Periods(count)),
        [true, true, true, false, true] if zeros == 1 => place(periods).map(Shared::NoDays),
        [true, true, true, true, false] => sum(sharing).map(Shared::Sum),
        _ => {
            let highest = count == SHARE_PLACES && periods.iter().all(|&days| days == u32::MAX);
            (highest && kopecks == u64::MAX && year == u32::MAX).then_some(Shared::AllHighest)
        }
    }
}

/// Where the period of 0 days stands.
fn place(periods: &[u32]) -> Option<Place> {
    let place = periods.iter().position(|&days| days == 0)?;
    Some(Place::of(place, periods.len()))
}

/// What a sum is that is not the year.
fn sum(sharing: &Sharing) -> Option<Sum> {
    let (sum, year) = (sharing.days(), u64::from(sharing.year));
    let wraps = sum & u64::from(u32::MAX) == year;
    match sum >> 32 {
        0 if sum + 1 == year => Some(Sum::OneBelow),
        0 if sum < year => Some(Sum::Below),
        0 if sum == year + 1 => Some(Sum::OneAbove),
        1 if wraps && sharing.periods.contains(&u32::MAX) => Some(Sum::WrapsByTheHighest),
        1 if wraps => Some(Sum::Wraps),
        _ if wraps => Some(Sum::WrapsAgain),
        _ => Some(Sum::Above),
    }
}

/// What shares that were made reached.
fn made(
    sharing: &Sharing,
    before: &[u64; SHARE_PLACES],
    shares: &[u64; SHARE_PLACES],
) -> Vec<Shared> {
    let Sharing {
        amount,
        year,
        ref periods,
    } = *sharing;
    let count = periods.len();
    let product = |days: u64| u128::from(amount) * u128::from(days);
    let year = u128::from(year);
    let mut reached = Vec::new();
    let mut reach = |what, when: bool| reached.extend(when.then_some(what));
    let mut days = 0;
    let (mut exact, mut left, mut carried) = (false, false, false);
    for (place, (&period, &share)) in periods.iter().zip(shares).enumerate() {
        days += u64::from(period);
        let remainder = product(days) % year;
        exact |= remainder == 0 && place + 1 < count;
        left |= remainder != 0;
        carried |= u128::from(share) != product(period.into()) / year;
    }
    let made = &shares[..count];
    let first = made.iter().position(|&share| share != 0).unwrap_or(count);
    reach(Shared::NothingFirst, first > 0);
    reach(Shared::NothingAmid, made[first..].contains(&0));
    reach(Shared::Exact, exact);
    reach(Shared::Left, left);
    reach(Shared::Carried, carried);
    reach(
        Shared::Cleared,
        before[count..].iter().any(|&held| held != 0),
    );
    reached
}

#[cfg(test)]
mod tests {
    use super::*;

    const NINES: [u64; SHARE_PLACES] = [9; SHARE_PLACES];

    fn sharing(amount: u64, year: u32, periods: &[u32]) -> Sharing {
        Sharing {
            amount,
            year,
            periods: periods.to_vec(),
        }
    }

    #[test]
    fn made_shares_reach_their_arguments_and_more() {
        let mut shares = [0; SHARE_PLACES];
        (shares[1], shares[3]) = (1, 1);
        let answer = reached(&sharing(2, 365, &[1, 182, 1, 181]), &NINES, Ok(shares));
        let expected = [
            Shared::Amount(Value::Between),
            Shared::Year(365),
            Shared::Periods(4),
            Shared::NothingFirst,
            Shared::NothingAmid,
            Shared::Left,
            Shared::Carried,
            Shared::Cleared,
        ];
        assert_eq!(answer, expected);
    }

    #[test]
    fn refused_shares_reach_their_only_cause() {
        let refused = |amount, year, periods: &[u32]| {
            let answer = Err(Refusal::YearPart);
            let mut reached = reached(&sharing(amount, year, periods), &NINES, answer);
            assert_eq!(reached.remove(0), Shared::Kept);
            assert!(reached.len() <= 1);
            reached.pop()
        };
        let table: [(u64, u32, &[u32], Shared); 12] = [
            (0, 365, &[365], Shared::Amount(Value::Zero)),
            (1, 364, &[364], Shared::Year(364)),
            (1, 365, &[], Shared::Periods(0)),
            (1, 365, &[0, 365], Shared::NoDays(Place::First)),
            (1, 365, &[5, 0, 360], Shared::NoDays(Place::Middle)),
            (1, 365, &[365, 0], Shared::NoDays(Place::Last)),
            (1, 365, &[364], Shared::Sum(Sum::OneBelow)),
            (1, 365, &[365, 1], Shared::Sum(Sum::OneAbove)),
            (
                1,
                365,
                &[u32::MAX, 366],
                Shared::Sum(Sum::WrapsByTheHighest),
            ),
            (1, 365, &[1 << 31, 1 << 31, 365], Shared::Sum(Sum::Wraps)),
            (
                1,
                365,
                &[u32::MAX, u32::MAX, 367],
                Shared::Sum(Sum::WrapsAgain),
            ),
            (u64::MAX, u32::MAX, &[u32::MAX; 12], Shared::AllHighest),
        ];
        for (amount, year, periods, expected) in table {
            assert_eq!(refused(amount, year, periods), Some(expected));
        }
        // Two causes say nothing of either.
        assert_eq!(refused(0, 365, &[364]), None);
        assert_eq!(refused(1, 364, &[365]), None);
        assert_eq!(refused(1, 365, &[0, 364]), None);
    }
}

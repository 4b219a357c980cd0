//! What the arguments of a part of a year are, and what became of them.

use std::fmt;

use cases::{Parting, KOPECKS_MAX, YEARS};
use kieselbrot::{Part, Refusal};

use crate::charges::{Value, VALUES};

/// What a part reached.
#[derive(Clone, Copy, Debug, PartialEq, Eq, PartialOrd, Ord)]
pub enum Parted {
    /// The amount had this value: in a part that was made if it is in range, and
    /// otherwise in one that was refused for it alone.
    Amount(Value),
    /// The same of the days, in a year of so many.
    Days(u32, Value),
    /// The same of the year's length. No days are within a year of 0.
    Year(u32),
    /// All arguments are the highest numbers.
    AllHighest,
    /// The part is no whole kopeck.
    NoKopeck,
    /// Less than the year leaves no remainder; some; the greatest.
    Exact,
    Left,
    GreatestLeft,
}

/// The lengths of a year that must be reached.
const LENGTHS: [u32; 6] = [0, 364, 365, 366, 367, u32::MAX];

const OTHERS: [Parted; 5] = [
    Parted::AllHighest,
    Parted::NoKopeck,
    Parted::Exact,
    Parted::Left,
    Parted::GreatestLeft,
];

/// All that must be reached.
pub fn all() -> impl Iterator<Item = Parted> {
    let days = |year| VALUES.map(|value| Parted::Days(year, value));
    let amounts = VALUES.into_iter().map(Parted::Amount);
    amounts
        .chain(YEARS.into_iter().flat_map(days))
        .chain(LENGTHS.map(Parted::Year))
        .chain(OTHERS)
}

impl fmt::Display for Parted {
    fn fmt(&self, f: &mut fmt::Formatter<'_>) -> fmt::Result {
        match self {
            Self::Amount(value) => write!(f, "amount {value:?}"),
            Self::Days(year, value) => write!(f, "days {value:?} of {year}"),
            Self::Year(year) => write!(f, "year {year}"),
            other => write!(f, "{other:?}"),
        }
    }
}

/// What a part reached, by its arguments and by what was answered.
pub fn reached(parting: &Parting, answer: Result<Part, Refusal>) -> Vec<Parted> {
    let &Parting { amount, days, year } = parting;
    let amount_said = Parted::Amount(Value::of(amount, KOPECKS_MAX, u64::MAX));
    let of_year = Value::of(days.into(), year.into(), u32::MAX.into());
    let days_said = Parted::Days(year, of_year);
    let amount_good = (1..=KOPECKS_MAX).contains(&amount);
    let year_good = YEARS.contains(&year);
    let days_good = (1..=year).contains(&days);
    match (answer, amount_good, year_good, days_good) {
        (Ok(part), true, true, true) => {
            let mut reached = vec![amount_said, days_said, Parted::Year(year)];
            reached.extend(made(parting, part));
            reached
        }
        (Err(_), false, true, true) => vec![amount_said],
        (Err(_), true, true, false) => vec![days_said],
        (Err(_), true, false, good) if (good || year == 0) && LENGTHS.contains(&year) => {
            vec![Parted::Year(year)]
        }
        (Err(_), ..) if (amount, days, year) == (u64::MAX, u32::MAX, u32::MAX) => {
            vec![Parted::AllHighest]
        }
        _ => vec![],
    }
}

/// What a part that was made reached.
fn made(parting: &Parting, part: Part) -> impl Iterator<Item = Parted> {
    let remainder = match part.remainder {
        0 if parting.days < parting.year => Some(Parted::Exact),
        0 => None,
        left if left == parting.year - 1 => Some(Parted::GreatestLeft),
        _ => Some(Parted::Left),
    };
    let nothing = (part.kopecks == 0).then_some(Parted::NoKopeck);
    remainder.into_iter().chain(nothing)
}

#[cfg(test)]
mod tests {
    use super::*;

    const MADE: Parting = Parting {
        amount: 1,
        days: 364,
        year: 365,
    };

    #[test]
    fn a_made_part_reaches_its_arguments_and_more() {
        let (kopecks, remainder) = (0, 364);
        let expected = [
            Parted::Amount(Value::One),
            Parted::Days(365, Value::Between),
            Parted::Year(365),
            Parted::GreatestLeft,
            Parted::NoKopeck,
        ];
        assert_eq!(reached(&MADE, Ok(Part { kopecks, remainder })), expected);
    }

    #[test]
    fn a_refused_part_reaches_its_only_cause() {
        let refused = |parting| reached(&parting, Err(Refusal::YearPart));
        let (amount, days, year) = (0, 366, 364);
        let expected = [Parted::Amount(Value::Zero)];
        assert_eq!(refused(Parting { amount, ..MADE }), expected);
        let expected = [Parted::Days(365, Value::OneBeyond)];
        assert_eq!(refused(Parting { days, ..MADE }), expected);
        assert_eq!(refused(Parting { year, ..MADE }), [Parted::Year(364)]);
        // Two causes say nothing of either.
        let (amount, days) = (0, 365);
        assert_eq!(refused(Parting { days, year, ..MADE }), []);
        assert_eq!(
            refused(Parting {
                amount,
                year,
                ..MADE
            }),
            []
        );
    }
}

//! What the arguments of a charge are, and what became of them.

use std::fmt;

use cases::{Charge, KOPECKS_MAX, RATE_MAX};
use kieselbrot::Refusal;

/// What a charge reached.
#[derive(Clone, Copy, Debug, PartialEq, Eq, PartialOrd, Ord)]
pub enum Charged {
    /// An argument had this value: in a charge that was made if it is in range, and
    /// otherwise in one that was refused for it alone.
    Argument(Argument, Value),
    /// All arguments are above the greatest of their range.
    AllBeyond,
    /// Amount times rate leaves half a kopeck, and no limit hides how it is rounded.
    Half,
    /// The same, of the greatest part below a half.
    JustBelowHalf,
    /// The charge stands between the limits.
    Within,
    /// It is the least, or the greatest, by itself.
    AtTheLeast,
    AtTheGreatest,
    /// It is below the least, or above the greatest.
    Raised,
    Lowered,
    /// The least is the greatest.
    EqualLimits,
    /// It is one above it, all arguments in range.
    LeastOneAbove,
}

/// The arguments, in their order.
#[derive(Clone, Copy, Debug, PartialEq, Eq, PartialOrd, Ord)]
pub enum Argument {
    Amount,
    Rate,
    Least,
    Greatest,
}

const ARGUMENTS: [Argument; 4] = [
    Argument::Amount,
    Argument::Rate,
    Argument::Least,
    Argument::Greatest,
];

/// Where an argument stands in its range.
#[derive(Clone, Copy, Debug, PartialEq, Eq, PartialOrd, Ord)]
pub enum Value {
    Zero,
    One,
    Between,
    AtTheBound,
    OneBeyond,
    Beyond,
    /// 2^64 - 1, or the highest number of its type.
    Highest,
}

/// All of them.
pub const VALUES: [Value; 7] = [
    Value::Zero,
    Value::One,
    Value::Between,
    Value::AtTheBound,
    Value::OneBeyond,
    Value::Beyond,
    Value::Highest,
];

const OTHERS: [Charged; 10] = [
    Charged::AllBeyond,
    Charged::Half,
    Charged::JustBelowHalf,
    Charged::Within,
    Charged::AtTheLeast,
    Charged::AtTheGreatest,
    Charged::Raised,
    Charged::Lowered,
    Charged::EqualLimits,
    Charged::LeastOneAbove,
];

/// All that must be reached.
pub fn all() -> impl Iterator<Item = Charged> {
    let of = |argument| VALUES.map(|value| Charged::Argument(argument, value));
    ARGUMENTS.into_iter().flat_map(of).chain(OTHERS)
}

impl fmt::Display for Charged {
    fn fmt(&self, f: &mut fmt::Formatter<'_>) -> fmt::Result {
        match self {
            Self::Argument(argument, value) => write!(f, "{argument:?} {value:?}"),
            other => write!(f, "{other:?}"),
        }
    }
}

impl Value {
    /// Where a number stands in the range up to the bound, the highest of its type being
    /// known.
    pub const fn of(value: u64, bound: u64, highest: u64) -> Self {
        match value {
            0 => Self::Zero,
            1 => Self::One,
            _ if value == highest => Self::Highest,
            _ if value < bound => Self::Between,
            _ if value == bound => Self::AtTheBound,
            _ if value == bound + 1 => Self::OneBeyond,
            _ => Self::Beyond,
        }
    }
}

impl Argument {
    const fn of(self, charge: &Charge) -> u64 {
        match self {
            Self::Amount => charge.amount,
            Self::Rate => charge.rate,
            Self::Least => charge.least,
            Self::Greatest => charge.greatest,
        }
    }

    const fn bound(self) -> u64 {
        match self {
            Self::Rate => RATE_MAX,
            _ => KOPECKS_MAX,
        }
    }

    const fn value(self, charge: &Charge) -> Value {
        Value::of(self.of(charge), self.bound(), u64::MAX)
    }

    fn in_range(self, charge: &Charge) -> bool {
        let zero = self == Self::Amount && charge.amount == 0;
        self.value(charge) <= Value::AtTheBound && !zero
    }
}

/// What a charge reached, by its arguments and by whether it was made.
pub fn reached(charge: &Charge, answer: Result<u64, Refusal>) -> Vec<Charged> {
    let out: Vec<Argument> = ARGUMENTS
        .into_iter()
        .filter(|argument| !argument.in_range(charge))
        .collect();
    let said = |argument: Argument| Charged::Argument(argument, argument.value(charge));
    let ordered = charge.least <= charge.greatest;
    match (answer, &out[..]) {
        (Ok(_), []) => {
            let mut reached = ARGUMENTS.map(said).to_vec();
            reached.extend(made(charge));
            reached
        }
        (Err(_), []) if charge.least == charge.greatest + 1 => vec![Charged::LeastOneAbove],
        // A least out of range is above a greatest in range.
        (Err(_), &[argument]) if ordered || argument == Argument::Least => vec![said(argument)],
        (Err(_), [_, _, _, _]) if charge.amount > 0 => vec![Charged::AllBeyond],
        _ => vec![],
    }
}

/// What a charge that was made reached: how it is rounded, and what the limits did.
fn made(charge: &Charge) -> impl Iterator<Item = Charged> {
    let (least, greatest) = (u128::from(charge.least), u128::from(charge.greatest));
    let (whole, left) = charge.parts();
    let seen = least <= whole && whole < greatest;
    let rounding = match left {
        5_000 if seen => Some(Charged::Half),
        4_999 if seen => Some(Charged::JustBelowHalf),
        _ => None,
    };
    let rounded = charge.rounded();
    let limits = if least == greatest {
        Charged::EqualLimits
    } else if rounded < least {
        Charged::Raised
    } else if rounded == least {
        Charged::AtTheLeast
    } else if rounded < greatest {
        Charged::Within
    } else if rounded == greatest {
        Charged::AtTheGreatest
    } else {
        Charged::Lowered
    };
    rounding.into_iter().chain([limits])
}

#[cfg(test)]
mod tests {
    use super::*;

    const MADE: Charge = Charge {
        amount: 1,
        rate: 5_000,
        least: 0,
        greatest: KOPECKS_MAX,
    };

    #[test]
    fn a_made_charge_reaches_its_arguments_and_more() {
        let reached = reached(&MADE, Ok(1));
        let expected = [
            Charged::Argument(Argument::Amount, Value::One),
            Charged::Argument(Argument::Rate, Value::Between),
            Charged::Argument(Argument::Least, Value::Zero),
            Charged::Argument(Argument::Greatest, Value::AtTheBound),
            Charged::Half,
            Charged::Within,
        ];
        assert_eq!(reached, expected);
    }

    #[test]
    fn a_refused_charge_reaches_its_only_cause() {
        let refused = |charge| reached(&charge, Err(Refusal::Tariff));
        let amount = 0;
        let expected = [Charged::Argument(Argument::Amount, Value::Zero)];
        assert_eq!(refused(Charge { amount, ..MADE }), expected);
        let rate = RATE_MAX + 1;
        let expected = [Charged::Argument(Argument::Rate, Value::OneBeyond)];
        assert_eq!(refused(Charge { rate, ..MADE }), expected);
        let (least, greatest) = (1, 0);
        let limits = Charge {
            least,
            greatest,
            ..MADE
        };
        assert_eq!(refused(limits), [Charged::LeastOneAbove]);
        // Two causes say nothing of either.
        assert_eq!(refused(Charge { amount, ..limits }), []);
        assert_eq!(refused(Charge { rate, ..limits }), []);
    }
}

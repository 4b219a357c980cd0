//! What the bank's charge is asked with.

use crate::random::Random;

/// The greatest amount, and the greatest limit of a charge, in kopecks.
pub const KOPECKS_MAX: u64 = 1_000_000_000_000;

/// The greatest rate, in hundredths of a percent.
pub const RATE_MAX: u64 = 10_000;

/// The arguments of a charge.
#[derive(Clone, Copy, Debug, PartialEq, Eq)]
pub struct Charge {
    /// In kopecks.
    pub amount: u64,
    /// In hundredths of a percent.
    pub rate: u64,
    /// The least charge, in kopecks.
    pub least: u64,
    /// The greatest charge, in kopecks.
    pub greatest: u64,
}

impl Charge {
    /// The whole kopecks of amount times rate over 10,000, and what is left, in parts
    /// of 10,000.
    #[must_use]
    pub fn parts(&self) -> (u128, u128) {
        let exact = u128::from(self.amount) * u128::from(self.rate);
        (exact / 10_000, exact % 10_000)
    }

    /// Amount times rate over 10,000, halves upward: the charge before the limits.
    #[must_use]
    pub fn rounded(&self) -> u128 {
        let (whole, left) = self.parts();
        whole + u128::from(left >= 5_000)
    }
}

/// The arguments of a charge: mostly in range, mostly about a half kopeck and limits
/// near the charge.
pub fn charge(random: &mut Random) -> Charge {
    let mut charge = charge_in_range(random);
    match random.below(10) {
        0..6 => {}
        6 => {
            charge.greatest = charge.greatest.min(KOPECKS_MAX - 1);
            charge.least = charge.greatest + 1;
        }
        7 => {
            charge = Charge {
                amount: random.number(),
                rate: random.number(),
                least: random.number(),
                greatest: random.number(),
            };
        }
        _ => match random.below(4) {
            0 => charge.amount = near_bounds(random, KOPECKS_MAX),
            1 => charge.rate = near_bounds(random, RATE_MAX),
            2 => charge.least = near_bounds(random, KOPECKS_MAX),
            _ => charge.greatest = near_bounds(random, KOPECKS_MAX),
        },
    }
    charge
}

/// The same, all in range.
pub fn charge_in_range(random: &mut Random) -> Charge {
    let (amount, rate) = match random.below(4) {
        0 => half(random),
        1 => just_below_half(random),
        2 => (
            in_range(random, KOPECKS_MAX).max(1),
            in_range(random, RATE_MAX),
        ),
        _ => (1 + up_to(random, KOPECKS_MAX - 1), up_to(random, RATE_MAX)),
    };
    let free = Charge {
        amount,
        rate,
        least: 0,
        greatest: KOPECKS_MAX,
    };
    let rounded = free.rounded() as u64;
    let (one, other) = match random.below(4) {
        0 => (free.least, free.greatest),
        1 => (in_range(random, KOPECKS_MAX), in_range(random, KOPECKS_MAX)),
        _ => (near(random, rounded), near(random, rounded)),
    };
    Charge {
        least: one.min(other),
        greatest: one.max(other),
        ..free
    }
}

/// An amount and a rate whose product is an odd multiple of 5,000: each has a divisor
/// of 5,000, the two of them together all of it, and both are odd multiples of these.
fn half(random: &mut Random) -> (u64, u64) {
    let divisor = random.pick(&[1, 2, 4, 8]) * random.pick(&[1, 5, 25, 125, 625]);
    let odd = |random: &mut Random, bound: u64| 2 * up_to(random, (bound - 1) / 2) + 1;
    let amount = divisor * odd(random, KOPECKS_MAX / divisor);
    let rate = 5_000 / divisor * odd(random, 2 * divisor);
    (amount, rate)
}

/// An amount and a rate whose product leaves 4,999: the amount has no divisor of
/// 10,000, so that one rate below 10,000 fits.
fn just_below_half(random: &mut Random) -> (u64, u64) {
    let tens = up_to(random, KOPECKS_MAX / 10 - 1);
    let amount = 10 * tens + random.pick(&[1, 3, 7, 9]);
    // Its 500th power leaves 1.
    let inverse = (0..499).fold(1, |power, _| power * (amount % 10_000) % 10_000);
    (amount, 4_999 * inverse % 10_000)
}

/// A number up to the bound, which is among them.
pub(crate) fn up_to(random: &mut Random, bound: u64) -> u64 {
    random.below(bound as usize + 1) as u64
}

/// A number up to the bound: any, a small one, or one at the ends.
pub(crate) fn in_range(random: &mut Random, bound: u64) -> u64 {
    let (any, small) = (up_to(random, bound), up_to(random, 1000));
    random.pick(&[any, any, small, small, 0, 1, bound - 1, bound])
}

/// A number at most two from this one, up to the greatest limit.
fn near(random: &mut Random, number: u64) -> u64 {
    (number + up_to(random, 4))
        .saturating_sub(2)
        .min(KOPECKS_MAX)
}

/// A number at an end of the range, one beyond it, or any.
pub(crate) fn near_bounds(random: &mut Random, bound: u64) -> u64 {
    let any = random.number();
    random.pick(&[0, 1, bound - 1, bound, bound + 1, bound + 1, u64::MAX, any])
}

#[cfg(test)]
mod tests {
    use super::*;

    #[test]
    fn halves_are_halves_and_in_range() {
        let random = &mut Random::new(10);
        for _ in 0..10_000 {
            for (left, (amount, rate)) in [(5_000, half(random)), (4_999, just_below_half(random))]
            {
                let charge = Charge {
                    amount,
                    rate,
                    least: 0,
                    greatest: 0,
                };
                assert_eq!(charge.parts().1, left, "{charge:?}");
                assert!(charge.amount >= 1 && charge.amount <= KOPECKS_MAX);
                assert!(charge.rate <= RATE_MAX);
            }
        }
    }

    #[test]
    fn a_charge_in_range_is_in_range() {
        let random = &mut Random::new(10);
        for _ in 0..10_000 {
            let charge = charge_in_range(random);
            assert!((1..=KOPECKS_MAX).contains(&charge.amount), "{charge:?}");
            assert!(charge.rate <= RATE_MAX, "{charge:?}");
            assert!(charge.least <= charge.greatest, "{charge:?}");
            assert!(charge.greatest <= KOPECKS_MAX, "{charge:?}");
        }
    }
}

//! What parts of a year and shares are asked with.

use crate::charges::{in_range, near_bounds, up_to, KOPECKS_MAX};
use crate::random::Random;

/// The lengths of a year, in days.
pub const YEARS: [u32; 2] = [365, 366];

/// How many places for shares there are.
pub const SHARE_PLACES: usize = 12;

/// The arguments of a part of a year.
#[derive(Clone, Copy, Debug, PartialEq, Eq)]
pub struct Parting {
    /// In kopecks.
    pub amount: u64,
    /// The days of the part.
    pub days: u32,
    /// The days of the year.
    pub year: u32,
}

/// The arguments of shares.
#[derive(Clone, Debug, PartialEq, Eq)]
pub struct Sharing {
    /// In kopecks.
    pub amount: u64,
    /// The days of the year.
    pub year: u32,
    /// The days of each period.
    pub periods: Vec<u32>,
}

impl Sharing {
    /// The days of all periods.
    #[must_use]
    pub fn days(&self) -> u64 {
        self.periods.iter().copied().map(u64::from).sum()
    }
}

/// The arguments of a part: mostly in range, else mostly with one of them out of it.
pub fn parting(random: &mut Random) -> Parting {
    let mut parting = parting_in_range(random);
    let any = random.number() as u32;
    match random.below(10) {
        0..6 => {}
        6 => parting.amount = near_bounds(random, KOPECKS_MAX),
        7 => {
            let year = parting.year;
            parting.days = random.pick(&[0, 1, year, year + 1, year + 1, u32::MAX, any]);
        }
        8 => {
            parting.year = random.pick(&[0, 1, 364, 364, 367, 367, u32::MAX, any]);
            parting.days = up_to(random, u64::from(parting.year.min(366))).max(1) as u32;
        }
        _ => {
            parting = Parting {
                amount: random.pick(&[0, KOPECKS_MAX + 1, u64::MAX]),
                days: random.pick(&[0, any, u32::MAX]),
                year: random.pick(&[0, any, u32::MAX]),
            };
        }
    }
    parting
}

/// The same, all in range.
pub fn parting_in_range(random: &mut Random) -> Parting {
    let year = random.pick(&YEARS);
    let amount = amount_in_range(random, year);
    let any = 1 + up_to(random, u64::from(year) - 1) as u32;
    let days = random.pick(&[any, any, any, any, any, any, 1, year - 1, year]);
    Parting { amount, days, year }
}

/// The arguments of shares: mostly in range, else mostly with one thing wrong.
pub fn sharing(random: &mut Random) -> Sharing {
    let mut sharing = sharing_in_range(random);
    let any = random.number() as u32;
    match random.below(20) {
        0..9 => {}
        9 => sharing.amount = near_bounds(random, KOPECKS_MAX),
        10 => {
            sharing.year = random.pick(&[364, 364, 367, 367, u32::MAX, any.max(20)]);
            sharing.periods = periods(random, sharing.year, sharing.periods.len());
        }
        11 => {
            let count = random.pick(&[13, 13, 13, 14, 20, 300]);
            sharing.periods = periods(random, sharing.year, count);
        }
        12 => sharing.periods.clear(),
        13 | 14 => with_a_period_of_0(random, &mut sharing.periods),
        15 => one_day_off(random, &mut sharing.periods),
        16 | 17 => wrap(random, &mut sharing.periods),
        18 => {
            let place = random.below(sharing.periods.len());
            sharing.periods[place] = random.pick(&[0, 1, any, u32::MAX]);
        }
        _ => {
            sharing.amount = random.pick(&[0, KOPECKS_MAX + 1, u64::MAX]);
            sharing.year = random.pick(&[0, any, u32::MAX]);
            let count = random.below(15);
            sharing.periods = vec![random.pick(&[0, any, u32::MAX]); count];
        }
    }
    sharing
}

/// The same, all in range.
pub fn sharing_in_range(random: &mut Random) -> Sharing {
    let count = 1 + random.below(SHARE_PLACES);
    sharing_of(random, count)
}

/// The same, among so many periods.
pub fn sharing_of(random: &mut Random, count: usize) -> Sharing {
    let year = random.pick(&YEARS);
    Sharing {
        amount: amount_in_range(random, year),
        year,
        periods: periods(random, year, count),
    }
}

/// An amount in range: any, a small one, one that the year's length or a part of it
/// divides, or one at the ends.
fn amount_in_range(random: &mut Random, year: u32) -> u64 {
    let year = u64::from(year);
    let factor = random.pick(&[1, 5, 61, 73, 183, year]);
    let multiple = factor * (1 + up_to(random, KOPECKS_MAX / factor - 1));
    let few = 1 + up_to(random, 20);
    let any = in_range(random, KOPECKS_MAX).max(1);
    random.pick(&[any, any, few, multiple])
}

/// So many periods that sum to this many days, at least one day each.
fn periods(random: &mut Random, days: u32, count: usize) -> Vec<u32> {
    let mut left = days - count as u32;
    let even = random.percent(50);
    let mut periods = Vec::with_capacity(count);
    for others in (1..count as u32).rev() {
        let most = if even {
            2 * (left / (others + 1))
        } else {
            left
        };
        let more = up_to(random, most.into()) as u32;
        periods.push(1 + more);
        left -= more;
    }
    periods.push(1 + left);
    random.shuffle(&mut periods);
    periods
}

/// Gives the days of one period to the next one.
fn with_a_period_of_0(random: &mut Random, periods: &mut [u32]) {
    let count = periods.len();
    let place = random.pick(&[0, count / 2, count - 1]);
    let days = std::mem::take(&mut periods[place]);
    periods[(place + 1) % count] += days;
}

/// One period a day longer or, if it has more than one, shorter.
fn one_day_off(random: &mut Random, periods: &mut [u32]) {
    let place = random.below(periods.len());
    if periods[place] > 1 && random.percent(50) {
        periods[place] -= 1;
    } else {
        periods[place] += 1;
    }
}

/// Adds 2^32, or a multiple of it, to the sum: once to the sum of each of some pairs.
fn wrap(random: &mut Random, periods: &mut [u32]) {
    let most = periods.len() / 2;
    let pairs = random.pick(&[1, most]).min(most);
    for pair in periods.chunks_exact_mut(2).take(pairs) {
        let days = pair[0] + pair[1];
        // Any that leaves at most 2^32 - 1 for the other.
        let any = (random.number() as u32).max(days + 1);
        pair[0] = random.pick(&[u32::MAX, 1 << 31, days + 1, any]);
        pair[1] = days.wrapping_sub(pair[0]);
    }
    random.shuffle(periods);
}

#[cfg(test)]
mod tests {
    use super::*;

    #[test]
    fn a_part_in_range_is_in_range() {
        let random = &mut Random::new(11);
        for _ in 0..10_000 {
            let parting = parting_in_range(random);
            assert!((1..=KOPECKS_MAX).contains(&parting.amount), "{parting:?}");
            assert!(YEARS.contains(&parting.year), "{parting:?}");
            assert!((1..=parting.year).contains(&parting.days), "{parting:?}");
        }
    }

    #[test]
    fn shares_in_range_are_in_range() {
        let random = &mut Random::new(11);
        for _ in 0..10_000 {
            let sharing = sharing_in_range(random);
            assert!((1..=KOPECKS_MAX).contains(&sharing.amount), "{sharing:?}");
            assert!(YEARS.contains(&sharing.year), "{sharing:?}");
            assert!((1..=SHARE_PLACES).contains(&sharing.periods.len()));
            assert!(!sharing.periods.contains(&0), "{sharing:?}");
            assert_eq!(sharing.days(), u64::from(sharing.year), "{sharing:?}");
        }
    }

    #[test]
    fn a_wrapped_sum_is_the_year_in_32_bits() {
        let random = &mut Random::new(11);
        for _ in 0..10_000 {
            let mut sharing = sharing_in_range(random);
            if sharing.periods.len() > 1 {
                wrap(random, &mut sharing.periods);
                assert!(sharing.days() > u64::from(sharing.year), "{sharing:?}");
                assert_eq!(sharing.days() as u32, sharing.year, "{sharing:?}");
            }
        }
    }
}

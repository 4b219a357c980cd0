//! Part of a year.

use crate::charge::is_amount;
use crate::refusal::Refusal;

/// "Up to 12 periods", and the "12 places for shares".
const PERIODS_MAX: usize = 12;

/// A part of a year's contribution: "quotient × year length + remainder = amount
/// × days exactly".
#[derive(Clone, Copy, Debug, PartialEq, Eq, Hash)]
pub struct Part {
    /// "Amount × days / year length, in whole kopecks".
    pub quotient: u64,
    /// "The remainder, below the year length".
    pub remainder: u32,
}

/// What is owed "by days": "amount × days / year length, in whole kopecks, with
/// the remainder".
///
/// # Errors
///
/// [`Refusal::YearPart`]: "a year length other than 365 or 366, days outside 1 to
/// that length, … or an amount out of range".
pub fn part(amount: u64, days: u32, year: u32) -> Result<Part, Refusal> {
    if !is_amount(amount) || !is_year(year) || !(1..=year).contains(&days) {
        return Err(Refusal::YearPart);
    }
    Ok(divide(amount, days, year))
}

/// The shares of "up to 12 periods that together make the year": "each share is
/// the difference of running quotients, and the shares sum to the amount; of 12
/// places for shares, those past the last period are 0".
///
/// # Errors
///
/// [`Refusal::YearPart`]: "a year length other than 365 or 366, days outside 1 to
/// that length, 0 or over 12 periods, periods not summing to the year, or an
/// amount out of range".
pub fn shares(amount: u64, year: u32, periods: &[u32]) -> Result<[u64; PERIODS_MAX], Refusal> {
    if !is_amount(amount) || !is_year(year) || !make_year(periods, year) {
        return Err(Refusal::YearPart);
    }
    let mut shares = [0; PERIODS_MAX];
    let mut days = 0;
    let mut before = 0;
    for (share, period) in shares.iter_mut().zip(periods) {
        days += period;
        let running = divide(amount, days, year).quotient;
        *share = running - before;
        before = running;
    }
    Ok(shares)
}

/// Quotient and remainder of arguments in range: the product is at most
/// 366 × 10^12.
fn divide(amount: u64, days: u32, year: u32) -> Part {
    let product = amount * u64::from(days);
    let year = u64::from(year);
    Part {
        quotient: product / year,
        remainder: (product % year) as u32,
    }
}

/// The year lengths: not "other than 365 or 366".
const fn is_year(year: u32) -> bool {
    matches!(year, 365 | 366)
}

/// Not "0 or over 12 periods", "periods of at least one day", "that together make
/// the year". Twelve 32-bit periods have a 64-bit sum.
fn make_year(periods: &[u32], year: u32) -> bool {
    (1..=PERIODS_MAX).contains(&periods.len())
        && periods.iter().all(|&period| period >= 1)
        && periods.iter().copied().map(u64::from).sum::<u64>() == u64::from(year)
}

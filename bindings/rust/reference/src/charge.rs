//! The bank's charge.

use crate::refusal::Refusal;

/// "An amount of 1 to 10^12 kopecks", also the greatest bound of a charge.
const AMOUNT_MAX: u64 = 1_000_000_000_000;

/// "A rate of 0 to 10,000 hundredths of a percent"; the greatest is the whole
/// amount.
const RATE_MAX: u64 = 10_000;

/// The bank's charge on an amount, in kopecks: "amount times rate over 10,000,
/// halves upward to the whole kopeck, raised to the least, then lowered to the
/// greatest".
///
/// # Errors
///
/// [`Refusal::Tariff`]: "an argument out of range or a least above the greatest".
pub fn charge(amount: u64, rate: u64, least: u64, greatest: u64) -> Result<u64, Refusal> {
    if !is_amount(amount) || rate > RATE_MAX || !is_bounds(least, greatest) {
        return Err(Refusal::Tariff);
    }
    Ok(at_rate(amount, rate).max(least).min(greatest))
}

/// "An amount of 1 to 10^12 kopecks".
pub(crate) fn is_amount(amount: u64) -> bool {
    (1..=AMOUNT_MAX).contains(&amount)
}

/// "A least and a greatest charge of at most 10^12 kopecks", the least not "above
/// the greatest".
const fn is_bounds(least: u64, greatest: u64) -> bool {
    least <= greatest && greatest <= AMOUNT_MAX
}

/// "Amount times rate over 10,000, halves upward to the whole kopeck". In range
/// the product is at most 10^16.
const fn at_rate(amount: u64, rate: u64) -> u64 {
    (amount * rate + RATE_MAX / 2) / RATE_MAX
}

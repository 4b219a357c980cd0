//! Which payments leave first.

use std::collections::HashSet;

use crate::charge::is_amount;
use crate::refusal::Refusal;

/// "Up to 64 payments", and the "64 places" for their arrival numbers.
const PAYMENTS_MAX: usize = 64;

/// "A balance of at most 10^15 kopecks".
const BALANCE_MAX: u64 = 1_000_000_000_000_000;

/// A payment waiting to leave.
#[derive(Clone, Copy, Debug, PartialEq, Eq, Hash)]
pub struct Payment {
    /// "Priority 1 to 5" of "the five priorities of article 855 of the Civil Code".
    pub priority: u32,
    /// "Any 32-bit arrival number".
    pub arrival: u32,
    /// "1 to 10^12 kopecks".
    pub amount: u64,
}

impl Payment {
    /// Not "a value out of range".
    fn is_in_range(&self) -> bool {
        (1..=5).contains(&self.priority) && is_amount(self.amount)
    }
}

/// Which payments leave, and in what order.
#[derive(Clone, Copy, Debug, PartialEq, Eq, Hash)]
pub struct Leaving {
    /// "All arrival numbers in that order (64 places, 0 past the last payment)".
    pub order: [u32; PAYMENTS_MAX],
    /// "How many are paid": the first so many of the order.
    pub paid: usize,
    /// "Their sum".
    pub sum: u64,
    /// "What is left"; "balance = paid + left".
    pub left: u64,
}

/// Debits a balance "by the five priorities of article 855 of the Civil Code and by
/// arrival within one, lower numbers first": "Pay in that order until the first that
/// exceeds what is left; it and all after it wait."
///
/// # Errors
///
/// In this order: [`Refusal::Queue`], [`Refusal::EqualArrivals`].
pub fn leave(balance: u64, payments: &[Payment]) -> Result<Leaving, Refusal> {
    if !is_in_range(balance, payments) {
        return Err(Refusal::Queue);
    }
    if !arrive_apart(payments) {
        return Err(Refusal::EqualArrivals);
    }
    Ok(pay(balance, &ordered(payments)))
}

/// Not "a value out of range or over 64 payments".
fn is_in_range(balance: u64, payments: &[Payment]) -> bool {
    balance <= BALANCE_MAX
        && payments.len() <= PAYMENTS_MAX
        && payments.iter().all(Payment::is_in_range)
}

/// Not "two equal arrival numbers".
fn arrive_apart(payments: &[Payment]) -> bool {
    let mut seen = HashSet::new();
    payments.iter().all(|payment| seen.insert(payment.arrival))
}

/// The payments by priority "and by arrival within one, lower numbers first".
fn ordered(payments: &[Payment]) -> Vec<Payment> {
    let mut ordered = payments.to_vec();
    ordered.sort_unstable_by_key(|payment| (payment.priority, payment.arrival));
    ordered
}

/// Pays "the longest opening part of that order which the balance covers".
fn pay(balance: u64, ordered: &[Payment]) -> Leaving {
    let mut leaving = Leaving {
        order: [0; PAYMENTS_MAX],
        paid: 0,
        sum: 0,
        left: balance,
    };
    for (place, payment) in leaving.order.iter_mut().zip(ordered) {
        *place = payment.arrival;
    }
    for payment in ordered {
        // "Until the first that exceeds what is left".
        let Some(left) = leaving.left.checked_sub(payment.amount) else {
            break;
        };
        leaving.left = left;
        leaving.sum += payment.amount;
        leaving.paid += 1;
    }
    leaving
}

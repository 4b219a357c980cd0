//! What payments leave a balance.

use crate::charges::{in_range, near_bounds, up_to, KOPECKS_MAX};
use crate::random::Random;

/// How many places for arrival numbers there are: the greatest number of payments.
pub const PAYMENT_PLACES: usize = 64;

/// The greatest balance, in kopecks.
pub const BALANCE_MAX: u64 = 1_000_000_000_000_000;

/// A payment that waits.
#[derive(Clone, Copy, Debug, PartialEq, Eq)]
pub struct Payment {
    /// 1 to 5.
    pub priority: u8,
    /// Any number.
    pub arrival: u32,
    /// In kopecks.
    pub amount: u64,
}

/// A balance, and payments in three lists.
#[derive(Clone, Debug, PartialEq, Eq)]
pub struct Queue {
    /// In kopecks.
    pub balance: u64,
    /// The priority of each payment.
    pub priorities: Vec<u8>,
    /// The arrival number of each payment.
    pub arrivals: Vec<u32>,
    /// The amount of each payment, in kopecks.
    pub amounts: Vec<u64>,
}

impl Queue {
    /// These payments.
    #[must_use]
    pub fn new(balance: u64, payments: &[Payment]) -> Self {
        Self {
            balance,
            priorities: payments.iter().map(|payment| payment.priority).collect(),
            arrivals: payments.iter().map(|payment| payment.arrival).collect(),
            amounts: payments.iter().map(|payment| payment.amount).collect(),
        }
    }

    /// The payments, if the lists are of one length.
    #[must_use]
    pub fn payments(&self) -> Option<Vec<Payment>> {
        let count = self.priorities.len();
        if self.arrivals.len() != count || self.amounts.len() != count {
            return None;
        }
        let payment = |place| Payment {
            priority: self.priorities[place],
            arrival: self.arrivals[place],
            amount: self.amounts[place],
        };
        Some((0..count).map(payment).collect())
    }
}

/// A balance and payments: mostly in range, else mostly with one thing wrong.
pub fn queue(random: &mut Random) -> Queue {
    let any = random.below(PAYMENT_PLACES + 1);
    let few = 1 + random.below(8);
    let count = random.pick(&[0, 1, 2, few, few, few, few, any, any, 63, 64]);
    let mut queue = queue_of(random, count);
    let last = count.saturating_sub(1);
    let any = random.below(last + 1);
    let place = random.pick(&[0, any, last]);
    match random.below(20) {
        11 => queue.balance = near_bounds(random, BALANCE_MAX),
        12 if count > 0 => {
            let any = random.byte();
            queue.priorities[place] = random.pick(&[0, 6, 7, 255, any]);
        }
        13 if count > 0 => queue.amounts[place] = near_bounds(random, KOPECKS_MAX),
        14 => {
            let count = random.pick(&[65, 65, 65, 66, 100]);
            queue = queue_of(random, count);
            if random.percent(30) {
                let one = queue.arrivals[0];
                queue.arrivals.fill(one);
            }
        }
        15 | 16 => with_equal_arrivals(random, &mut queue),
        17 | 18 => with_other_lengths(random, &mut queue),
        19 if count > 0 => {
            with_equal_arrivals(random, &mut queue);
            queue.amounts[place] = random.pick(&[0, KOPECKS_MAX + 1]);
        }
        _ => {}
    }
    queue
}

/// So many payments, all in range but perhaps for their number, with a balance near the
/// sum of some that leave first.
pub fn queue_of(random: &mut Random, count: usize) -> Queue {
    let payments = payments(random, count);
    let mut ordered = payments.clone();
    ordered.sort_by_key(|payment| (payment.priority, payment.arrival));
    let paid = random.below(count + 1);
    let sum: u64 = ordered[..paid].iter().map(|payment| payment.amount).sum();
    let next = ordered.get(paid).map_or(0, |payment| payment.amount);
    let within = up_to(random, next.saturating_sub(1));
    let just_short = next.saturating_sub(1);
    let more = random.pick(&[0, 0, 1, within, within, just_short]);
    let any = in_range(random, BALANCE_MAX);
    let near = (sum + more).min(BALANCE_MAX);
    let balance = random.pick(&[near, near, near, near, near, sum.saturating_sub(1), any]);
    Queue::new(balance, &payments)
}

fn payments(random: &mut Random, count: usize) -> Vec<Payment> {
    let arrivals = arrivals(random, count);
    let (one, other) = (1 + random.below(5) as u8, 1 + random.below(5) as u8);
    let priorities: &[u8] = match random.below(4) {
        0 => &[one],
        1 => &[one, other],
        _ => &[1, 2, 3, 4, 5],
    };
    let kind = random.below(8);
    let mut payment = |&arrival: &u32| Payment {
        priority: random.pick(priorities),
        arrival,
        amount: match kind {
            0 => KOPECKS_MAX,
            1..4 => in_range(random, KOPECKS_MAX).max(1),
            _ => 1 + up_to(random, 9),
        },
    };
    arrivals.iter().map(&mut payment).collect()
}

/// So many different arrival numbers: small ones, any, those about 2^31, or those at the
/// ends.
fn arrivals(random: &mut Random, count: usize) -> Vec<u32> {
    let kind = random.below(4);
    let mut arrivals = Vec::with_capacity(count);
    while arrivals.len() < count {
        let any = random.number() as u32;
        let near = random.below(200) as u32;
        let arrival = match kind {
            0 => near,
            1 => (1 << 31) - 100 + near,
            2 => random.pick(&[0, 1, (1 << 31) - 1, 1 << 31, u32::MAX, any, any]),
            _ => any,
        };
        if !arrivals.contains(&arrival) {
            arrivals.push(arrival);
        }
    }
    arrivals
}

/// Two arrival numbers the same, if there are two payments.
fn with_equal_arrivals(random: &mut Random, queue: &mut Queue) {
    let count = queue.arrivals.len();
    if count < 2 {
        return;
    }
    let one = random.below(count);
    let step = 1 + random.below(count - 1);
    let other = random.pick(&[(one + 1) % count, (one + step) % count]);
    if random.percent(20) {
        queue.arrivals[other] = 0;
    }
    queue.arrivals[one] = queue.arrivals[other];
}

/// One of the lists, or two of them, shorter or longer.
fn with_other_lengths(random: &mut Random, queue: &mut Queue) {
    let lists = 1 + random.below(6);
    let count = queue.priorities.len();
    let any = random.below(PAYMENT_PLACES + 1);
    let other = random.pick(&[count + 1, count.saturating_sub(1), 0, any]);
    if lists & 1 != 0 {
        queue.priorities.resize(other, 1);
    }
    if lists & 2 != 0 {
        // Different from those that stand there.
        let mut more = arrivals(random, 3 * PAYMENT_PLACES);
        more.retain(|arrival| !queue.arrivals.contains(arrival));
        queue.arrivals.extend(more);
        queue.arrivals.truncate(other);
    }
    if lists & 4 != 0 {
        queue.amounts.resize(other, 1);
    }
}

#[cfg(test)]
mod tests {
    use super::*;

    #[test]
    fn payments_in_range_are_in_range() {
        let random = &mut Random::new(13);
        for count in (0..=PAYMENT_PLACES).cycle().take(5_000) {
            let queue = queue_of(random, count);
            assert!(queue.balance <= BALANCE_MAX, "{queue:?}");
            let payments = queue.payments().expect("lists of one length");
            assert_eq!(payments.len(), count);
            assert_eq!(Queue::new(queue.balance, &payments), queue);
            for payment in payments {
                assert!((1..=5).contains(&payment.priority), "{payment:?}");
                assert!((1..=KOPECKS_MAX).contains(&payment.amount), "{payment:?}");
            }
            let mut arrivals = queue.arrivals;
            arrivals.sort_unstable();
            arrivals.dedup();
            assert_eq!(arrivals.len(), count);
        }
    }
}

//! What payments and their balance are, and what became of them.

use std::fmt;

use cases::{Payment, Queue, BALANCE_MAX, KOPECKS_MAX, PAYMENT_PLACES};
use kieselbrot::{Paid, Refusal};

use crate::charges::{Value, VALUES};
use crate::shares::{Place, PLACES};

/// What payments reached.
#[derive(Clone, Copy, Debug, PartialEq, Eq, PartialOrd, Ord)]
pub enum Queued {
    /// The balance had this value: where the order was made if it is in range, and
    /// otherwise where it alone was refused.
    Balance(Value),
    /// The same of a priority, and of an amount.
    Priority(u8),
    Amount(Value),
    /// The payment that alone was refused stood here.
    WrongPayment(Place),
    /// The same of how many payments there were.
    Payments(usize),
    MorePayments,
    /// One list alone was shorter, or longer, than the other two, which was refused.
    Lengths(List, Other),
    /// An arrival number had this value where the order was made.
    Arrival(u32),
    /// Two arrival numbers were equal, which alone was refused: of payments with the same
    /// priority, and with different ones; next to each other, and apart; both 0.
    Equal(Priorities),
    EqualNext,
    EqualApart,
    Equal0,
    /// 18 was answered where two arrival numbers were equal; of 65 that all were.
    Before19,
    AllEqual,
    /// All are paid, some, none of them.
    AllPaid,
    SomePaid,
    NonePaid,
    /// Nothing is left; the first that waits exceeds what is left by one kopeck; one
    /// behind it would not.
    NothingLeft,
    OneShort,
    LaterFits,
    /// The order is not that of the payments as given; nor of their arrivals alone; nor of
    /// priorities alone; nor of arrivals that have a sign.
    NotAsGiven,
    NotByArrival,
    NotByPriority,
    NotSigned,
    /// Places past the last payment held something.
    Cleared,
    /// A refusal left places that held something.
    Kept,
}

/// The three lists.
#[derive(Clone, Copy, Debug, PartialEq, Eq, PartialOrd, Ord)]
pub enum List {
    Priorities,
    Arrivals,
    Amounts,
}

/// How a list differs in its length.
#[derive(Clone, Copy, Debug, PartialEq, Eq, PartialOrd, Ord)]
pub enum Other {
    Shorter,
    Longer,
}

/// What the priorities of two payments are.
#[derive(Clone, Copy, Debug, PartialEq, Eq, PartialOrd, Ord)]
pub enum Priorities {
    Same,
    Different,
}

/// The priorities that must be reached.
const PRIORITIES: [u8; 8] = [0, 1, 2, 3, 4, 5, 6, 255];

/// The numbers of payments that must be reached.
const COUNTS: [usize; 6] = [0, 1, 2, 63, 64, 65];

/// The arrival numbers that must be reached.
const ARRIVALS: [u32; 5] = [0, 1, (1 << 31) - 1, 1 << 31, u32::MAX];

const LENGTHS: [Queued; 6] = [
    Queued::Lengths(List::Priorities, Other::Shorter),
    Queued::Lengths(List::Priorities, Other::Longer),
    Queued::Lengths(List::Arrivals, Other::Shorter),
    Queued::Lengths(List::Arrivals, Other::Longer),
    Queued::Lengths(List::Amounts, Other::Shorter),
    Queued::Lengths(List::Amounts, Other::Longer),
];

const OTHERS: [Queued; 20] = [
    Queued::MorePayments,
    Queued::Equal(Priorities::Same),
    Queued::Equal(Priorities::Different),
    Queued::EqualNext,
    Queued::EqualApart,
    Queued::Equal0,
    Queued::Before19,
    Queued::AllEqual,
    Queued::AllPaid,
    Queued::SomePaid,
    Queued::NonePaid,
    Queued::NothingLeft,
    Queued::OneShort,
    Queued::LaterFits,
    Queued::NotAsGiven,
    Queued::NotByArrival,
    Queued::NotByPriority,
    Queued::NotSigned,
    Queued::Cleared,
    Queued::Kept,
];

/// All that must be reached.
pub fn all() -> impl Iterator<Item = Queued> {
    let balances = VALUES.into_iter().map(Queued::Balance);
    balances
        .chain(PRIORITIES.map(Queued::Priority))
        .chain(VALUES.map(Queued::Amount))
        .chain(PLACES.map(Queued::WrongPayment))
        .chain(COUNTS.map(Queued::Payments))
        .chain(LENGTHS)
        .chain(ARRIVALS.map(Queued::Arrival))
        .chain(OTHERS)
}

impl fmt::Display for Queued {
    fn fmt(&self, f: &mut fmt::Formatter<'_>) -> fmt::Result {
        match self {
            Self::Balance(value) => write!(f, "balance {value:?}"),
            Self::Priority(priority) => write!(f, "priority {priority}"),
            Self::Amount(value) => write!(f, "amount {value:?}"),
            Self::WrongPayment(place) => write!(f, "a wrong payment {place:?}"),
            Self::Payments(count) => write!(f, "how many, {count}"),
            Self::Lengths(list, other) => write!(f, "{list:?} {other:?}"),
            Self::Arrival(arrival) => write!(f, "arrival {arrival}"),
            Self::Equal(priorities) => write!(f, "equal arrivals, priorities {priorities:?}"),
            Self::Before19 => write!(f, "18 before 19"),
            other => write!(f, "{other:?}"),
        }
    }
}

/// What payments reached, by what the places held before, and by the answer.
pub fn reached(
    queue: &Queue,
    before: &[u32; PAYMENT_PLACES],
    answer: Result<Paid, Refusal>,
) -> Vec<Queued> {
    let held = answer.is_err() && before.iter().any(|&held| held != 0);
    let mut reached = match (answer, queue.payments()) {
        (Ok(paid), Some(payments)) => made(queue.balance, &payments, before, paid),
        (Err(Refusal::EqualArrivals), Some(payments)) => equal(&payments),
        _ => refused(queue),
    };
    reached.extend(held.then_some(Queued::Kept));
    reached
}

fn balance(balance: u64) -> Queued {
    Queued::Balance(Value::of(balance, BALANCE_MAX, u64::MAX))
}

fn amount(amount: u64) -> Queued {
    Queued::Amount(Value::of(amount, KOPECKS_MAX, u64::MAX))
}

/// What 18 reached: its cause, if there is one alone.
fn refused(queue: &Queue) -> Vec<Queued> {
    let mut causes = causes(queue);
    // Two causes say nothing of either.
    causes.truncate(if causes.len() == 1 { 1 } else { 0 });
    let alone = causes
        .into_iter()
        .flat_map(|(cause, place)| [Some(cause), place.map(Queued::WrongPayment)]);
    let mut reached: Vec<Queued> = alone.flatten().collect();
    let mut arrivals = queue.arrivals.clone();
    arrivals.sort_unstable();
    arrivals.dedup();
    if arrivals.len() < queue.arrivals.len() {
        reached.push(Queued::Before19);
    }
    if arrivals.len() == 1 && queue.payments().is_some_and(|all| all.len() == 65) {
        reached.push(Queued::AllEqual);
    }
    reached
}

/// All causes of 18; those that are of a payment with its place.
fn causes(queue: &Queue) -> Vec<(Queued, Option<Place>)> {
    let mut causes = Vec::new();
    if queue.balance > BALANCE_MAX {
        causes.push((balance(queue.balance), None));
    }
    causes.extend(length(queue).map(|cause| (cause, None)));
    for (place, &priority) in queue.priorities.iter().enumerate() {
        if !(1..=5).contains(&priority) {
            let place = Place::of(place, queue.priorities.len());
            causes.push((Queued::Priority(priority), Some(place)));
        }
    }
    for (place, &kopecks) in queue.amounts.iter().enumerate() {
        if !(1..=KOPECKS_MAX).contains(&kopecks) {
            let place = Place::of(place, queue.amounts.len());
            causes.push((amount(kopecks), Some(place)));
        }
    }
    causes
}

/// What is wrong with the lengths of the lists.
fn length(queue: &Queue) -> Option<Queued> {
    let priorities = queue.priorities.len();
    let arrivals = queue.arrivals.len();
    let amounts = queue.amounts.len();
    let list = |list, own: usize, others: usize| {
        let other = if own < others {
            Other::Shorter
        } else {
            Other::Longer
        };
        Some(Queued::Lengths(list, other))
    };
    match priorities {
        _ if priorities == arrivals && arrivals == amounts => match priorities {
            0..=PAYMENT_PLACES => None,
            65 => Some(Queued::Payments(65)),
            _ => Some(Queued::MorePayments),
        },
        _ if arrivals == amounts => list(List::Priorities, priorities, amounts),
        _ if priorities == amounts => list(List::Arrivals, arrivals, amounts),
        _ => list(List::Amounts, amounts, priorities),
    }
}

/// What 19 reached, if two arrival numbers alone are equal.
fn equal(payments: &[Payment]) -> Vec<Queued> {
    let same = |one: usize, other: usize| payments[one].arrival == payments[other].arrival;
    let others = |one| (one + 1..payments.len()).map(move |other| (one, other));
    let pairs = (0..payments.len()).flat_map(others);
    let equal: Vec<_> = pairs.filter(|&(one, other)| same(one, other)).collect();
    let [(one, other)] = equal[..] else {
        return vec![];
    };
    let priorities = match payments[one].priority == payments[other].priority {
        true => Priorities::Same,
        false => Priorities::Different,
    };
    let apart = match other == one + 1 {
        true => Queued::EqualNext,
        false => Queued::EqualApart,
    };
    let mut reached = vec![Queued::Equal(priorities), apart];
    reached.extend((payments[one].arrival == 0).then_some(Queued::Equal0));
    reached
}

/// What an order that was made reached.
fn made(
    given: u64,
    payments: &[Payment],
    before: &[u32; PAYMENT_PLACES],
    paid: Paid,
) -> Vec<Queued> {
    let ordered = |key: fn(&Payment) -> (u8, i64)| {
        let mut ordered = payments.to_vec();
        ordered.sort_by_key(key);
        ordered
    };
    let right = ordered(|payment| (payment.priority, payment.arrival.into()));
    let waiting = &right[paid.count..];
    let count = payments.len();
    let mut reached: Vec<Queued> = payments
        .iter()
        .flat_map(|payment| [Queued::Priority(payment.priority), amount(payment.amount)])
        .collect();
    reached.sort_unstable();
    reached.dedup();
    reached.push(balance(given));
    reached.extend(COUNTS.contains(&count).then_some(Queued::Payments(count)));
    for arrival in ARRIVALS {
        let is_there = payments.iter().any(|payment| payment.arrival == arrival);
        reached.extend(is_there.then_some(Queued::Arrival(arrival)));
    }
    let mut reach = |what, when: bool| reached.extend(when.then_some(what));
    reach(Queued::AllPaid, paid.count == count && count > 0);
    reach(Queued::SomePaid, paid.count > 0 && paid.count < count);
    reach(Queued::NonePaid, paid.count == 0 && count > 0);
    reach(Queued::NothingLeft, paid.count > 0 && paid.left == 0);
    if let [first, others @ ..] = waiting {
        reach(Queued::OneShort, first.amount == paid.left + 1);
        let fits = others.iter().any(|payment| payment.amount <= paid.left);
        reach(Queued::LaterFits, fits);
    }
    let signed = |payment: &Payment| (payment.priority, i64::from(payment.arrival as i32));
    reach(Queued::NotAsGiven, right != payments);
    reach(
        Queued::NotByArrival,
        right != ordered(|payment| (0, payment.arrival.into())),
    );
    reach(
        Queued::NotByPriority,
        right != ordered(|payment| (payment.priority, 0)),
    );
    reach(Queued::NotSigned, right != ordered(signed));
    reach(
        Queued::Cleared,
        before[count..].iter().any(|&held| held != 0),
    );
    reached
}

#[cfg(test)]
mod tests {
    use super::*;

    const NINES: [u32; PAYMENT_PLACES] = [9; PAYMENT_PLACES];

    fn queue(balance: u64, given: &[(u8, u32, u64)]) -> Queue {
        let payment = |&(priority, arrival, amount): &(u8, u32, u64)| Payment {
            priority,
            arrival,
            amount,
        };
        let payments: Vec<Payment> = given.iter().map(payment).collect();
        Queue::new(balance, &payments)
    }

    #[test]
    fn an_order_reaches_its_arguments_and_more() {
        let (count, sum, left) = (1, 5, 4);
        let queue = queue(9, &[(1, 1 << 31, 5), (2, 0, 1), (1, 1, 5)]);
        let expected = [
            Queued::Priority(1),
            Queued::Priority(2),
            Queued::Amount(Value::One),
            Queued::Amount(Value::Between),
            Queued::Balance(Value::Between),
            Queued::Arrival(0),
            Queued::Arrival(1),
            Queued::Arrival(1 << 31),
            Queued::SomePaid,
            Queued::OneShort,
            Queued::LaterFits,
            Queued::NotAsGiven,
            Queued::NotByArrival,
            Queued::NotByPriority,
            Queued::NotSigned,
            Queued::Cleared,
        ];
        let answer = Ok(Paid { count, sum, left });
        assert_eq!(reached(&queue, &NINES, answer), expected);
    }

    #[test]
    fn refused_payments_reach_their_only_cause() {
        let reach = |queue: &Queue, refusal| {
            let mut reached = reached(queue, &NINES, Err(refusal));
            assert_eq!(reached.pop(), Some(Queued::Kept));
            reached
        };
        let refused = |balance, given: &[_]| reach(&queue(balance, given), Refusal::Queue);
        let wrong = |what, place| vec![what, Queued::WrongPayment(place)];
        let expected = [Queued::Balance(Value::OneBeyond)];
        assert_eq!(refused(BALANCE_MAX + 1, &[]), expected);
        let expected = wrong(Queued::Priority(6), Place::Last);
        assert_eq!(refused(1, &[(1, 1, 1), (6, 2, 1)]), expected);
        let expected = wrong(Queued::Amount(Value::Zero), Place::First);
        assert_eq!(refused(1, &[(1, 1, 0), (1, 2, 1)]), expected);
        let expected = [Queued::Payments(65), Queued::Before19, Queued::AllEqual];
        assert_eq!(refused(1, &[(1, 1, 1); 65]), expected);
        // Two causes say nothing of either.
        assert_eq!(refused(1, &[(0, 1, 0)]), []);
        let mut short = queue(1, &[(1, 1, 1), (1, 2, 1)]);
        short.arrivals.pop();
        let expected = [Queued::Lengths(List::Arrivals, Other::Shorter)];
        assert_eq!(reach(&short, Refusal::Queue), expected);
        let equal = |given: &[_]| reach(&queue(1, given), Refusal::EqualArrivals);
        let expected = [
            Queued::Equal(Priorities::Different),
            Queued::EqualApart,
            Queued::Equal0,
        ];
        assert_eq!(equal(&[(1, 0, 1), (1, 3, 1), (2, 0, 1)]), expected);
        let expected = [Queued::Equal(Priorities::Same), Queued::EqualNext];
        assert_eq!(equal(&[(1, 3, 1), (1, 3, 1)]), expected);
    }
}

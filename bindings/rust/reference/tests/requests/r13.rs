//! R-13, which payments leave first.

use reference::{leave, Leaving, Payment, Refusal};

const MAX: u64 = 1_000_000_000_000;

const BALANCE_MAX: u64 = 1_000_000_000_000_000;

const fn payment(priority: u32, arrival: u32, amount: u64) -> Payment {
    Payment {
        priority,
        arrival,
        amount,
    }
}

/// These arrival numbers, then 0 in the places past them.
fn order(arrivals: &[u32]) -> [u32; 64] {
    let mut order = [0; 64];
    order[..arrivals.len()].copy_from_slice(arrivals);
    order
}

#[test]
fn by_priority_then_by_arrival() {
    let payments = [
        payment(5, 1, 10),
        payment(3, 9, 20),
        payment(3, 4, 30),
        payment(1, 7, 40),
        payment(5, 0, 50),
        payment(2, u32::MAX, 60),
        payment(4, 2, 70),
    ];
    let expected = Leaving {
        order: order(&[7, u32::MAX, 4, 9, 2, 0, 1]),
        paid: 7,
        sum: 280,
        left: 720,
    };
    assert_eq!(leave(1_000, &payments), Ok(expected));
}

#[test]
fn the_first_that_exceeds_and_all_after_it_wait() {
    let payments = [payment(3, 3, 1), payment(1, 1, 60), payment(2, 2, 50)];
    let expected = Leaving {
        order: order(&[1, 2, 3]),
        paid: 1,
        sum: 60,
        left: 40,
    };
    assert_eq!(leave(100, &payments), Ok(expected));
    let none = Leaving {
        order: order(&[1, 2, 3]),
        paid: 0,
        sum: 0,
        left: 59,
    };
    assert_eq!(leave(59, &payments), Ok(none));
}

#[test]
fn exactly_what_is_left_is_paid() {
    let payments = [payment(1, 1, 60), payment(1, 2, 40)];
    let with = |balance: u64| {
        leave(balance, &payments)
            .map(|l| (l.paid, l.sum, l.left))
            .expect("in range")
    };
    assert_eq!(with(101), (2, 100, 1));
    assert_eq!(with(100), (2, 100, 0));
    assert_eq!(with(99), (1, 60, 39));
    assert_eq!(with(60), (1, 60, 0));
    assert_eq!(with(0), (0, 0, 0));
}

#[test]
fn no_payments() {
    for balance in [0, 1, BALANCE_MAX] {
        let expected = Leaving {
            order: [0; 64],
            paid: 0,
            sum: 0,
            left: balance,
        };
        assert_eq!(leave(balance, &[]), Ok(expected));
    }
}

#[test]
fn sixty_four_payments() {
    let payments: Vec<_> = (0..64).map(|i| payment(1, 64 - i, MAX)).collect();
    let leaving = leave(BALANCE_MAX, &payments).expect("in range");
    assert!(leaving.order.iter().copied().eq(1..=64));
    assert_eq!(leaving.paid, 64);
    assert_eq!(leaving.sum, 64 * MAX);
    assert_eq!(leaving.left, BALANCE_MAX - 64 * MAX);
}

/// Those paid are the longest opening part of the order that the balance covers.
#[test]
fn the_longest_opening_part() {
    let payments: Vec<_> = (0..40)
        .map(|i: u32| payment(i * 7 % 5 + 1, i * 97 % 41, u64::from(i * i % 23) + 1))
        .collect();
    let mut sorted: Vec<_> = payments
        .iter()
        .map(|p| (p.priority, p.arrival, p.amount))
        .collect();
    sorted.sort_unstable();
    let arrivals: Vec<_> = sorted.iter().map(|line| line.1).collect();
    let sum = |count: usize| sorted[..count].iter().map(|line| line.2).sum::<u64>();
    for balance in 0..=sum(40) + 1 {
        let leaving = leave(balance, &payments).expect("in range");
        let longest = (0..=40).rfind(|&count| sum(count) <= balance);
        assert_eq!(Some(leaving.paid), longest);
        assert_eq!(leaving.sum, sum(leaving.paid));
        assert_eq!(leaving.sum + leaving.left, balance);
        assert_eq!(leaving.order, order(&arrivals));
    }
}

#[test]
fn refused_out_of_range() {
    let refused = Err(Refusal::Queue);
    let good = payment(1, 1, 1);
    for balance in [BALANCE_MAX + 1, u64::MAX] {
        assert_eq!(leave(balance, &[]), refused);
        assert_eq!(leave(balance, &[good]), refused);
    }
    for priority in [0, 6, u32::MAX] {
        assert_eq!(leave(10, &[good, payment(priority, 2, 1)]), refused);
    }
    for amount in [0, MAX + 1, u64::MAX] {
        assert_eq!(leave(10, &[good, payment(1, 2, amount)]), refused);
    }
    let many: Vec<_> = (0..65).map(|i| payment(1, i, 1)).collect();
    assert_eq!(leave(100, &many), refused);
    assert!(leave(100, &many[..64]).is_ok());
}

#[test]
fn refused_equal_arrivals() {
    let refused = Err(Refusal::EqualArrivals);
    assert_eq!(leave(10, &[payment(1, 3, 1), payment(1, 3, 1)]), refused);
    let apart = [payment(1, 0, 1), payment(2, 5, 1), payment(5, 0, 2)];
    assert_eq!(leave(10, &apart), refused);
    assert_eq!(leave(0, &apart), refused);
}

#[test]
fn equal_arrivals_after_18() {
    let refused = Err(Refusal::Queue);
    let equal = [payment(1, 3, 1), payment(1, 3, 1), payment(6, 4, 1)];
    assert_eq!(leave(10, &equal), refused);
    assert_eq!(leave(BALANCE_MAX + 1, &equal[..2]), refused);
    assert_eq!(leave(10, &[payment(1, 3, 1); 65]), refused);
}

#[test]
fn their_numbers() {
    assert_eq!(Refusal::Queue.number(), 18);
    assert_eq!(Refusal::Queue.to_string(), "18");
    assert_eq!(Refusal::EqualArrivals.number(), 19);
    assert_eq!(Refusal::EqualArrivals.to_string(), "19");
}

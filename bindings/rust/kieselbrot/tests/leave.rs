//! Which payments leave first, on R-13's table.

use kieselbrot::{leave, leave_into, Leaving, Paid, Payment, Refusal};
use kieselbrot::{BALANCE_MAX, KOPECKS_MAX, PAYMENT_PLACES};

type Given = (u8, u32, u64);

/// Balance and payments; the order, how many are paid, their sum and what is left.
type Row<'a> = (u64, &'a [Given], &'a [u32], usize, u64, u64);

fn payments(given: &[Given]) -> Vec<Payment> {
    let payment = |&(priority, arrival, amount): &Given| Payment {
        priority,
        arrival,
        amount,
    };
    given.iter().map(payment).collect()
}

/// Both forms must answer the same; a refusal must leave lent places.
fn leaving(balance: u64, given: &[Given]) -> Result<Leaving, Refusal> {
    let priorities: Vec<u8> = given.iter().map(|payment| payment.0).collect();
    let arrivals: Vec<u32> = given.iter().map(|payment| payment.1).collect();
    let amounts: Vec<u64> = given.iter().map(|payment| payment.2).collect();
    let mut places = [9; PAYMENT_PLACES];
    let paid = leave_into(balance, &priorities, &arrivals, &amounts, &mut places);
    let answer = leave(balance, &payments(given));
    assert_eq!(paid.map(|paid| Leaving { places, paid }), answer);
    assert!(answer.is_ok() || places == [9; PAYMENT_PLACES]);
    answer
}

#[test]
fn by_priority_then_by_arrival_as_far_as_the_balance_goes() {
    let table: [Row<'_>; 7] = [
        (10, &[(3, 7, 5), (1, 9, 5), (1, 2, 5)], &[2, 9, 7], 2, 10, 0),
        // The third would fit, and waits.
        (9, &[(1, 1, 5), (1, 2, 5), (2, 3, 1)], &[1, 2, 3], 1, 5, 4),
        (
            5,
            &[(1, 4_294_967_295, 5), (1, 2_147_483_648, 1), (1, 1, 1)],
            &[1, 2_147_483_648, 4_294_967_295],
            2,
            2,
            3,
        ),
        (0, &[(5, 0, 1)], &[0], 0, 0, 0),
        (0, &[], &[], 0, 0, 0),
        (BALANCE_MAX, &[], &[], 0, 0, BALANCE_MAX),
        (
            BALANCE_MAX,
            &[(5, 0, KOPECKS_MAX), (1, 1, 1)],
            &[1, 0],
            2,
            KOPECKS_MAX + 1,
            BALANCE_MAX - KOPECKS_MAX - 1,
        ),
    ];
    for (balance, given, order, count, sum, left) in table {
        let mut places = [0; PAYMENT_PLACES];
        places[..order.len()].copy_from_slice(order);
        let paid = Paid { count, sum, left };
        assert_eq!(leaving(balance, given), Ok(Leaving { places, paid }));
    }
}

#[test]
fn sixty_four_payments() {
    let given: Vec<Given> = (1..=64).rev().map(|arrival| (1, arrival, 1)).collect();
    let answer = leaving(63, &given).expect("64 payments are in range");
    assert!(answer.places.into_iter().eq(1..=64));
    let (count, sum, left) = (63, 63, 0);
    assert_eq!(answer.paid, Paid { count, sum, left });
}

#[test]
fn what_is_out_of_range_is_refused() {
    let sixty_five: Vec<Given> = (1..=65).map(|arrival| (1, arrival, 1)).collect();
    let table: [(u64, &[Given]); 12] = [
        (BALANCE_MAX + 1, &[(1, 1, 1)]),
        (u64::MAX, &[]),
        (10, &[(0, 1, 1)]),
        (10, &[(6, 1, 1)]),
        (10, &[(255, 1, 1)]),
        (10, &[(1, 1, 0)]),
        (10, &[(1, 1, KOPECKS_MAX + 1)]),
        (10, &[(1, 1, u64::MAX)]),
        (10, &sixty_five),
        (10, &[(1, 1, 1); 65]),
        (10, &[(1, 1, 1); 1000]),
        // Before two equal arrival numbers.
        (10, &[(1, 1, 1), (1, 1, 1), (1, 2, 0)]),
    ];
    for (balance, given) in table {
        assert_eq!(leaving(balance, given), Err(Refusal::Queue));
    }
}

#[test]
fn lists_of_different_lengths_are_refused() {
    let (priorities, arrivals, amounts) = ([1; 64], [1, 2, 3], [1; 64]);
    for (first, second, third) in [
        (1, 2, 1),
        (1, 0, 1),
        (1, 1, 0),
        (0, 1, 1),
        (1, 1, 2),
        (3, 2, 1),
    ] {
        let mut places = [9; PAYMENT_PLACES];
        let answer = leave_into(
            10,
            &priorities[..first],
            &arrivals[..second],
            &amounts[..third],
            &mut places,
        );
        assert_eq!(answer, Err(Refusal::Queue));
        assert_eq!(places, [9; PAYMENT_PLACES]);
    }
}

#[test]
fn equal_arrival_numbers_are_refused() {
    let table: [&[Given]; 5] = [
        &[(1, 1, 1), (1, 1, 1)],
        &[(1, 0, 1), (1, 0, 2)],
        &[(1, 3, 1), (2, 3, 1)],
        &[(1, u32::MAX, 1), (3, 2, 1), (5, u32::MAX, 1)],
        &[(1, 1, 1); 64],
    ];
    for given in table {
        for balance in [0, 10] {
            assert_eq!(leaving(balance, given), Err(Refusal::EqualArrivals));
        }
    }
}

//! The bank's charge on R-10's table.

use kieselbrot::{charge, Refusal, KOPECKS_MAX, RATE_MAX};

#[test]
fn halves_go_upward() {
    let table = [
        (1, 5_000, 1),
        (1, 4_999, 0),
        (3, 5_000, 2),
        (100, 149, 1),
        (100, 150, 2),
        (100, 0, 0),
        (9_999, RATE_MAX, 9_999),
        (KOPECKS_MAX, RATE_MAX, KOPECKS_MAX),
        (999_999_999_999, 5_000, 500_000_000_000),
        (999_999_999_999, 4_999, 499_900_000_000),
    ];
    for (amount, rate, kopecks) in table {
        assert_eq!(charge(amount, rate, 0, KOPECKS_MAX), Ok(kopecks));
    }
}

#[test]
fn it_is_raised_then_lowered() {
    let table = [
        (KOPECKS_MAX, RATE_MAX, 0, 5, 5),
        (100, 0, 3, 9, 3),
        (100, 1, 7, 7, 7),
        (100, RATE_MAX, 0, 0, 0),
        (100, 400, 4, 9, 4),
        (100, 900, 4, 9, 9),
        (100, 500, 4, 9, 5),
        (1, 1, KOPECKS_MAX, KOPECKS_MAX, KOPECKS_MAX),
    ];
    for (amount, rate, least, greatest, kopecks) in table {
        assert_eq!(charge(amount, rate, least, greatest), Ok(kopecks));
    }
}

#[test]
fn out_of_range_is_refused() {
    let table = [
        (0, 5_000, 0, KOPECKS_MAX),
        (KOPECKS_MAX + 1, 5_000, 0, KOPECKS_MAX),
        (100, RATE_MAX + 1, 0, KOPECKS_MAX),
        (100, 5_000, 1, 0),
        (100, 5_000, 0, KOPECKS_MAX + 1),
        (100, 5_000, KOPECKS_MAX + 1, KOPECKS_MAX + 1),
        (100, 5_000, KOPECKS_MAX + 1, KOPECKS_MAX),
        (u64::MAX, u64::MAX, u64::MAX, u64::MAX),
    ];
    for (amount, rate, least, greatest) in table {
        let answer = charge(amount, rate, least, greatest);
        assert_eq!(answer, Err(Refusal::Tariff));
    }
}

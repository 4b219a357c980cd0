//! R-10, the bank's charge.

use reference::{charge, Refusal};

const MAX: u64 = 1_000_000_000_000;

#[test]
fn amount_times_rate_over_ten_thousand() {
    assert_eq!(charge(10_000, 1, 0, MAX), Ok(1));
    assert_eq!(charge(1_000_000, 50, 0, MAX), Ok(5_000));
    assert_eq!(charge(123_456, 10_000, 0, MAX), Ok(123_456));
    assert_eq!(charge(MAX, 10_000, 0, MAX), Ok(MAX));
    assert_eq!(charge(MAX, 0, 0, MAX), Ok(0));
}

#[test]
fn halves_upward() {
    assert_eq!(charge(4_999, 1, 0, MAX), Ok(0));
    assert_eq!(charge(5_000, 1, 0, MAX), Ok(1));
    assert_eq!(charge(14_999, 1, 0, MAX), Ok(1));
    assert_eq!(charge(15_000, 1, 0, MAX), Ok(2));
    assert_eq!(charge(1, 4_999, 0, MAX), Ok(0));
    assert_eq!(charge(1, 5_000, 0, MAX), Ok(1));
    assert_eq!(charge(MAX - 1, 9_999, 0, MAX), Ok(999_899_999_999));
}

/// The rounded charge c is the one whole number with
/// 10,000 c - 5,000 <= amount × rate < 10,000 c + 5,000.
#[test]
fn the_nearest_whole_kopeck() {
    for amount in (1..30_000).step_by(7).chain([MAX - 1, MAX]) {
        for rate in (0..=10_000).step_by(125).chain([1, 3, 4_999, 9_999]) {
            let exact = u128::from(amount) * u128::from(rate);
            let found = u128::from(charge(amount, rate, 0, MAX).expect("in range"));
            assert!(10_000 * found <= exact + 5_000);
            assert!(exact < 10_000 * found + 5_000);
        }
    }
}

#[test]
fn raised_to_the_least_lowered_to_the_greatest() {
    assert_eq!(charge(10_000, 100, 99, 101), Ok(100));
    assert_eq!(charge(10_000, 100, 100, 100), Ok(100));
    assert_eq!(charge(10_000, 100, 101, 200), Ok(101));
    assert_eq!(charge(10_000, 100, 0, 99), Ok(99));
    assert_eq!(charge(10_000, 100, 0, 0), Ok(0));
    assert_eq!(charge(1, 0, 300, 300), Ok(300));
    assert_eq!(charge(1, 0, MAX, MAX), Ok(MAX));
    assert_eq!(charge(MAX, 10_000, 0, 1), Ok(1));
}

#[test]
fn refused_out_of_range() {
    let refused = Err(Refusal::Tariff);
    for amount in [0, MAX + 1, u64::MAX] {
        assert_eq!(charge(amount, 1, 0, MAX), refused);
    }
    for rate in [10_001, u64::MAX] {
        assert_eq!(charge(1, rate, 0, MAX), refused);
    }
    for bound in [MAX + 1, u64::MAX] {
        assert_eq!(charge(1, 1, 0, bound), refused);
        assert_eq!(charge(1, 1, bound, bound), refused);
        assert_eq!(charge(1, 1, bound, MAX), refused);
    }
    assert_eq!(charge(10_000, 100, 101, 100), refused);
    assert_eq!(charge(10_000, 100, 1, 0), refused);
    assert_eq!(charge(u64::MAX, u64::MAX, u64::MAX, u64::MAX), refused);
}

#[test]
fn its_number() {
    assert_eq!(Refusal::Tariff.number(), 14);
    assert_eq!(Refusal::Tariff.to_string(), "14");
}

//! R-11, part of a year.

use reference::{part, shares, Part, Refusal};

const MAX: u64 = 1_000_000_000_000;

const MONTHS: [u32; 12] = [31, 28, 31, 30, 31, 30, 31, 31, 30, 31, 30, 31];

#[test]
fn the_example() {
    let expected = Part {
        quotient: 84,
        remainder: 340,
    };
    assert_eq!(part(1_000, 31, 365), Ok(expected));
}

#[test]
fn exact_with_the_remainder_below_the_year() {
    for amount in [1, 2, 364, 365, 366, 1_000, 999_983, MAX - 1, MAX] {
        for year in [365, 366] {
            for days in 1..=year {
                let Part {
                    quotient,
                    remainder,
                } = part(amount, days, year).expect("in range");
                assert!(remainder < year);
                assert_eq!(
                    u128::from(quotient) * u128::from(year) + u128::from(remainder),
                    u128::from(amount) * u128::from(days)
                );
            }
        }
    }
}

#[test]
fn a_whole_year_is_the_amount() {
    let whole = |quotient| Part {
        quotient,
        remainder: 0,
    };
    assert_eq!(part(MAX, 365, 365), Ok(whole(MAX)));
    assert_eq!(part(1, 366, 366), Ok(whole(1)));
}

#[test]
fn part_refused() {
    let refused = Err(Refusal::YearPart);
    for year in [0, 1, 364, 367, u32::MAX] {
        assert_eq!(part(1_000, 1, year), refused);
        assert_eq!(part(1_000, year, year), refused);
    }
    for days in [0, 366, u32::MAX] {
        assert_eq!(part(1_000, days, 365), refused);
    }
    assert_eq!(part(1_000, 367, 366), refused);
    for amount in [0, MAX + 1, u64::MAX] {
        assert_eq!(part(amount, 1, 365), refused);
    }
    assert_eq!(part(u64::MAX, u32::MAX, u32::MAX), refused);
}

#[test]
fn shares_by_months() {
    let found = shares(1_000, 365, &MONTHS).expect("in range");
    // Running quotients 84, 161, 246, 328, 413, 495, 580, 665, 747, 832, 915, 1000.
    assert_eq!(found, [84, 77, 85, 82, 85, 82, 85, 85, 82, 85, 83, 85]);
}

#[test]
fn shares_past_the_last_period_are_zero() {
    let mut expected = [0; 12];
    expected[0] = MAX;
    assert_eq!(shares(MAX, 366, &[366]), Ok(expected));
    // 1 × 364 / 365 is 0 with 364 over, so the last day has the kopeck.
    expected = [0; 12];
    expected[1] = 1;
    assert_eq!(shares(1, 365, &[364, 1]), Ok(expected));
}

#[test]
fn shares_are_differences_and_sum_to_the_amount() {
    let lists: [&[u32]; 6] = [
        &[365],
        &[1, 364],
        &[100, 100, 165],
        &MONTHS,
        &[1, 1, 1, 1, 1, 1, 1, 1, 1, 1, 1, 354],
        &[306, 59],
    ];
    for amount in [1, 11, 12, 364, 365, 1_000, 999_983, MAX] {
        for periods in lists {
            let found = shares(amount, 365, periods).expect("in range");
            assert_eq!(found.iter().sum::<u64>(), amount);
            for last in 1..=periods.len() {
                let days = periods[..last].iter().sum();
                let running = part(amount, days, 365).expect("in range").quotient;
                assert_eq!(found[..last].iter().sum::<u64>(), running);
            }
            assert!(found[periods.len()..].iter().all(|&share| share == 0));
        }
    }
}

#[test]
fn shares_refused() {
    let refused = Err(Refusal::YearPart);
    assert_eq!(shares(1_000, 365, &[]), refused);
    assert_eq!(
        shares(1_000, 365, &[1, 1, 1, 1, 1, 1, 1, 1, 1, 1, 1, 1, 353]),
        refused
    );
    assert_eq!(shares(1_000, 366, &MONTHS), refused);
    assert_eq!(shares(1_000, 365, &[364]), refused);
    assert_eq!(shares(1_000, 365, &[366]), refused);
    assert_eq!(shares(1_000, 365, &[0, 365]), refused);
    assert_eq!(shares(1_000, 365, &[365, 0]), refused);
    assert_eq!(shares(1_000, 364, &[364]), refused);
    assert_eq!(shares(1_000, 0, &[]), refused);
    for amount in [0, MAX + 1, u64::MAX] {
        assert_eq!(shares(amount, 365, &[365]), refused);
    }
}

/// Sums that would be the year modulo 2^32.
#[test]
fn a_sum_does_not_wrap() {
    let refused = Err(Refusal::YearPart);
    assert_eq!(shares(1_000, 365, &[u32::MAX, 366]), refused);
    assert_eq!(shares(1_000, 365, &[1 << 31, 1 << 31, 365]), refused);
    assert_eq!(shares(1_000, 365, &[u32::MAX; 12]), refused);
}

#[test]
fn its_number() {
    assert_eq!(Refusal::YearPart.number(), 15);
    assert_eq!(Refusal::YearPart.to_string(), "15");
}

//! Parts of a year and shares on R-11's tables.

use kieselbrot::{part, shares, shares_into, Part, Refusal, KOPECKS_MAX, SHARE_PLACES};

const MONTHS: [u32; 12] = [31, 28, 31, 30, 31, 30, 31, 31, 30, 31, 30, 31];

/// Twelve periods of one day, and the rest of a year of 365.
const THIRTEEN: [u32; 13] = [1, 1, 1, 1, 1, 1, 1, 1, 1, 1, 1, 1, 353];

#[test]
fn whole_kopecks_with_the_remainder() {
    let table = [
        (1_000, 31, 365, 84, 340),
        (1_000, 31, 366, 84, 256),
        (KOPECKS_MAX, 1, 365, 2_739_726_027, 145),
        (1, 366, 366, 1, 0),
        (1, 365, 365, 1, 0),
        (1, 1, 366, 0, 1),
        (KOPECKS_MAX, 366, 366, KOPECKS_MAX, 0),
    ];
    for (amount, days, year, kopecks, remainder) in table {
        let expected = Part { kopecks, remainder };
        assert_eq!(part(amount, days, year), Ok(expected));
    }
}

#[test]
fn a_part_out_of_range_is_refused() {
    let table = [
        (1_000, 31, 364),
        (1_000, 31, 367),
        (1_000, 31, 0),
        (1_000, 0, 365),
        (1_000, 366, 365),
        (1_000, 367, 366),
        (0, 31, 365),
        (KOPECKS_MAX + 1, 31, 365),
        (u64::MAX, u32::MAX, u32::MAX),
    ];
    for (amount, days, year) in table {
        assert_eq!(part(amount, days, year), Err(Refusal::YearPart));
    }
}

/// The twelve places: these shares, then 0.
fn places(shares: &[u64]) -> [u64; SHARE_PLACES] {
    let mut places = [0; SHARE_PLACES];
    places[..shares.len()].copy_from_slice(shares);
    places
}

#[test]
fn shares_sum_to_the_amount_and_the_rest_is_0() {
    let table: [(u64, u32, &[u32], &[u64]); 6] = [
        (
            1_000,
            365,
            &MONTHS,
            &[84, 77, 85, 82, 85, 82, 85, 85, 82, 85, 83, 85],
        ),
        (1, 365, &[365], &[1]),
        (5, 365, &[364, 1], &[4, 1]),
        (5, 366, &[183, 183], &[2, 3]),
        (
            1,
            365,
            &[1, 1, 1, 1, 1, 1, 1, 1, 1, 1, 1, 354],
            &[0, 0, 0, 0, 0, 0, 0, 0, 0, 0, 0, 1],
        ),
        (
            KOPECKS_MAX,
            366,
            &[1, 365],
            &[2_732_240_437, 997_267_759_563],
        ),
    ];
    for (amount, year, periods, expected) in table {
        let expected = places(expected);
        assert_eq!(expected.iter().sum::<u64>(), amount);
        assert_eq!(shares(amount, year, periods), Ok(expected));
        let mut lent = [9; SHARE_PLACES];
        assert_eq!(shares_into(amount, year, periods, &mut lent), Ok(()));
        assert_eq!(lent, expected);
    }
}

#[test]
fn shares_out_of_range_are_refused_and_leave_the_places() {
    let table: [(u64, u32, &[u32]); 11] = [
        (1_000, 364, &[364]),
        (1_000, 367, &[367]),
        (1_000, 365, &[]),
        (1_000, 365, &THIRTEEN),
        (1_000, 365, &[0, 365]),
        (1_000, 365, &[365, 0]),
        (1_000, 365, &[364]),
        (1_000, 365, &[365, 1]),
        (1_000, 365, &[u32::MAX, 366]),
        (0, 365, &MONTHS),
        (KOPECKS_MAX + 1, 365, &MONTHS),
    ];
    for (amount, year, periods) in table {
        assert_eq!(shares(amount, year, periods), Err(Refusal::YearPart));
        let mut lent = [9; SHARE_PLACES];
        let answer = shares_into(amount, year, periods, &mut lent);
        assert_eq!((answer, lent), (Err(Refusal::YearPart), [9; SHARE_PLACES]));
    }
}

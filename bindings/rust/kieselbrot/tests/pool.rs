//! Pooling a register on R-12's table.

use cases::{inn_of, Inn};
use kieselbrot::{pool, Refusal};
use kieselbrot::{KOPECKS_MAX, LINES_MAX, LINE_SIZE, ORDER_MAX, POOL_SIZE};

const A: Inn = *b"781023456779";
const B: Inn = *b"123456789047";

/// What the output held before.
const HELD: u8 = 0xEE;

fn bytes(lines: &[(Inn, u64)]) -> Vec<u8> {
    let line = |&(inn, kopecks): &(Inn, u64)| [&inn[..], &kopecks.to_be_bytes()].concat();
    lines.iter().flat_map(line).collect()
}

/// The pooled lines, or the refusal; the output past them, or all of it, must stay.
fn pooled(register: &[u8], amount: u64, size: usize) -> Result<Vec<u8>, Refusal> {
    let mut output = vec![HELD; size];
    let answer = pool(register, amount, &mut output);
    let (made, rest) = output.split_at(LINE_SIZE * answer.unwrap_or(0));
    assert!(rest.iter().all(|&byte| byte == HELD));
    answer.map(|_| made.to_vec())
}

#[test]
fn lines_of_one_inn_become_one_where_they_stand_first() {
    let register = bytes(&[(A, 5), (B, 7), (A, 1)]);
    let expected = Ok(bytes(&[(A, 6), (B, 7)]));
    for size in [POOL_SIZE, POOL_SIZE + 1, POOL_SIZE + LINE_SIZE] {
        assert_eq!(pooled(&register, 13, size), expected);
    }
    let turned = bytes(&[(B, 7), (A, 5), (A, 1)]);
    let expected = Ok(bytes(&[(B, 7), (A, 6)]));
    assert_eq!(pooled(&turned, 13, POOL_SIZE), expected);
}

#[test]
fn another_amount_is_refused_with_the_difference() {
    let register = bytes(&[(A, 5), (B, 7), (A, 1)]);
    let table = [
        (14, -1),
        (12, 1),
        (1, 12),
        (ORDER_MAX, 13 - ORDER_MAX as i64),
    ];
    for (amount, difference) in table {
        let expected = Err(Refusal::Discrepancy { difference });
        assert_eq!(pooled(&register, amount, POOL_SIZE), expected);
    }
}

#[test]
fn five_hundred_lines() {
    let one = bytes(&[(A, KOPECKS_MAX); LINES_MAX]);
    let expected = Ok(bytes(&[(A, 500_000_000_000_000)]));
    assert_eq!(pooled(&one, 500_000_000_000_000, POOL_SIZE), expected);

    let each: Vec<_> = (1..=500).map(|k| (inn_of(7_700_000_000 + k), k)).collect();
    let register = bytes(&each);
    let total = 500 * 501 / 2;
    assert_eq!(pooled(&register, total, POOL_SIZE), Ok(register));
}

#[test]
fn a_short_output_is_refused_before_all_else() {
    let register = bytes(&[(A, 5), (B, 7), (A, 1)]);
    for size in [0, LINE_SIZE, POOL_SIZE - 1] {
        for (register, amount) in [(&register[..], 13), (&register, 14), (&[], 0)] {
            assert_eq!(pooled(register, amount, size), Err(Refusal::Output));
        }
    }
}

#[test]
fn a_wrong_register_is_refused() {
    let wrong = [
        (A, 0),
        (A, KOPECKS_MAX + 1),
        (A, u64::MAX),
        (*b"781023456789", 1),
        (*b"781023456778", 1),
        (*b"78102345677 ", 1),
        ([b'0'; 12], 1),
        (inn_of(1_234_567), 1),
    ];
    for line in wrong {
        assert_eq!(
            pooled(&bytes(&[line]), 1, POOL_SIZE),
            Err(Refusal::Register)
        );
        let among = bytes(&[(B, 1), line, (B, 1)]);
        assert_eq!(pooled(&among, 3, POOL_SIZE), Err(Refusal::Register));
    }
    let line = bytes(&[(A, 1)]);
    let long = line.repeat(LINES_MAX + 1);
    for size in [0, 1, 19, 21, 59, 61, long.len()] {
        let register = &long[..size];
        let amount = (size / LINE_SIZE) as u64;
        for amount in [1, amount.max(1)] {
            assert_eq!(pooled(register, amount, POOL_SIZE), Err(Refusal::Register));
        }
    }
}

#[test]
fn an_amount_out_of_range_is_refused() {
    let register = bytes(&[(A, 5), (B, 7), (A, 1)]);
    for amount in [0, ORDER_MAX + 1, u64::MAX] {
        assert_eq!(pooled(&register, amount, POOL_SIZE), Err(Refusal::Register));
    }
}

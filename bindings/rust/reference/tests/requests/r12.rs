//! R-12, status 15 with its register.

use reference::{pool, Refusal};

const MAX: u64 = 1_000_000_000_000;

const LINE: usize = 20;

const OUTPUT: usize = 500 * LINE;

/// What the output held before.
const HELD: u8 = 0xA5;

type Inn = [u8; 12];

/// The INN that R-4 passes.
const PASSES: Inn = *b"781023456779";

/// The INN with these first ten digits and their check digits.
fn inn(ten: u64) -> Inn {
    let mut digits = [0; 12];
    digits[..10].copy_from_slice(format!("{ten:010}").as_bytes());
    digits[10] = check(&digits, &[7, 2, 4, 10, 3, 5, 9, 4, 6, 8]);
    digits[11] = check(&digits, &[3, 7, 2, 4, 10, 3, 5, 9, 4, 6, 8]);
    digits
}

fn check(digits: &Inn, weights: &[u32]) -> u8 {
    let products = weights.iter().zip(digits);
    let sum: u32 = products.map(|(w, d)| w * u32::from(d - b'0')).sum();
    b'0' + (sum % 11 % 10) as u8
}

fn bytes(lines: &[(Inn, u64)]) -> Vec<u8> {
    let mut bytes = Vec::new();
    for (inn, amount) in lines {
        bytes.extend_from_slice(inn);
        bytes.extend_from_slice(&amount.to_be_bytes());
    }
    bytes
}

/// Pools into an output of 500 places; checks that a refusal changes nothing and
/// that places past the pooled lines keep what they held. Gives the pooled bytes.
fn pooled(register: &[u8], amount: u64) -> Result<Vec<u8>, Refusal> {
    let mut output = vec![HELD; OUTPUT];
    let answer = pool(register, amount, &mut output);
    let (written, kept) = output.split_at(LINE * answer.unwrap_or(0));
    assert!(kept.iter().all(|&byte| byte == HELD));
    answer.map(|_| written.to_vec())
}

#[test]
fn the_inns_of_these_tests() {
    assert_eq!(inn(7_810_234_567), PASSES);
}

#[test]
fn one_line() {
    let register = bytes(&[(PASSES, 258)]);
    assert_eq!(&register[..12], b"781023456779");
    assert_eq!(&register[12..], [0, 0, 0, 0, 0, 0, 1, 2]);
    assert_eq!(pooled(&register, 258), Ok(register));
}

#[test]
fn lines_of_one_inn_in_the_order_of_first_appearance() {
    let [a, b, c] = [9_900_000_001, 7_810_234_567, 1_234_567_890].map(inn);
    let register = bytes(&[(b, 5), (a, 7), (b, 11), (c, 1), (a, 2), (b, 100)]);
    let expected = bytes(&[(b, 116), (a, 9), (c, 1)]);
    assert_eq!(pooled(&register, 126), Ok(expected));
}

#[test]
fn five_hundred_lines() {
    let all: Vec<_> = (0..500).map(|i| (inn(5_000_000_000 + i), i + 1)).collect();
    let total = 500 * 501 / 2;
    assert_eq!(pooled(&bytes(&all), total), Ok(bytes(&all)));

    // A pooled sum may be greater than a line's.
    let one = bytes(&[(PASSES, MAX); 500]);
    let expected = bytes(&[(PASSES, 500 * MAX)]);
    assert_eq!(pooled(&one, 500 * MAX), Ok(expected));
}

#[test]
fn many_lines_of_few_inns() {
    let lines: Vec<_> = (0..500)
        .map(|i| (inn(1_000_000_000 + i * i % 37), i * i * i + 1))
        .collect();
    let mut expected: Vec<(Inn, u64)> = Vec::new();
    for &(inn, amount) in &lines {
        match expected.iter_mut().find(|line| line.0 == inn) {
            Some(line) => line.1 += amount,
            None => expected.push((inn, amount)),
        }
    }
    let total = lines.iter().map(|line| line.1).sum();
    assert_eq!(expected.iter().map(|line| line.1).sum::<u64>(), total);
    assert_eq!(pooled(&bytes(&lines), total), Ok(bytes(&expected)));
}

#[test]
fn refused_lines() {
    let refused = Err(Refusal::Register);
    for amount in [0, MAX + 1, u64::MAX] {
        let register = bytes(&[(PASSES, 1), (PASSES, amount)]);
        assert_eq!(pooled(&register, 1), refused);
    }
    let zeros = inn(12_345_678);
    assert!(zeros.starts_with(b"00"));
    for bad in [
        *b"781023456789",
        *b"781023456778",
        *b"78102345677 ",
        *b"7701569743\0\0",
        *b"007701569743",
        *b"000000000000",
        [0; 12],
        [0xFF; 12],
        zeros,
    ] {
        assert_eq!(pooled(&bytes(&[(bad, 1)]), 1), refused);
        assert_eq!(pooled(&bytes(&[(PASSES, 1), (bad, 1)]), 2), refused);
    }
}

#[test]
fn refused_registers() {
    let refused = Err(Refusal::Register);
    let line = bytes(&[(PASSES, 1)]);
    assert_eq!(pooled(&[], 1), refused);
    assert_eq!(pooled(&line[..19], 1), refused);
    assert_eq!(pooled(&[&line[..], &[0]].concat(), 1), refused);
    assert_eq!(pooled(&[&line[..], &line[..19]].concat(), 2), refused);
    assert_eq!(pooled(&line.repeat(501), 501), refused);
    assert_eq!(pooled(&line.repeat(500), 500).map(|p| p.len()), Ok(LINE));
}

#[test]
fn refused_order_amounts() {
    let line = bytes(&[(PASSES, 1)]);
    for amount in [0, 1_000 * MAX + 1, u64::MAX] {
        assert_eq!(pooled(&line, amount), Err(Refusal::Register));
    }
}

#[test]
fn register_minus_order() {
    let line = bytes(&[(PASSES, 100)]);
    let discrepancy = |difference| Err(Refusal::Discrepancy { difference });
    assert_eq!(pooled(&line, 99), discrepancy(1));
    assert_eq!(pooled(&line, 101), discrepancy(-1));
    assert_eq!(pooled(&line, 1), discrepancy(99));
    assert_eq!(
        pooled(&line, 1_000 * MAX),
        discrepancy(-999_999_999_999_900)
    );
    let most = bytes(&[(PASSES, MAX); 500]);
    assert_eq!(pooled(&most, 1), discrepancy(499_999_999_999_999));
    assert_eq!(
        pooled(&most, 1_000 * MAX),
        discrepancy(-500_000_000_000_000)
    );
}

#[test]
fn tested_7_16_17() {
    let line = bytes(&[(PASSES, 100)]);
    for size in [0, LINE, OUTPUT - LINE, OUTPUT - 1] {
        let mut output = vec![HELD; size];
        for (register, amount) in [(&line[..], 100), (&line[..], 99), (&[], 0)] {
            assert_eq!(pool(register, amount, &mut output), Err(Refusal::Output));
            assert!(output.iter().all(|&byte| byte == HELD));
        }
    }
    // A bad line with a total that differs, and an order amount out of range.
    let bad = bytes(&[(PASSES, 0)]);
    assert_eq!(pooled(&bad, 5), Err(Refusal::Register));
    assert_eq!(pooled(&line, 0), Err(Refusal::Register));
}

#[test]
fn more_than_five_hundred_places() {
    let line = bytes(&[(PASSES, 100)]);
    for size in [OUTPUT + 1, OUTPUT + LINE] {
        let mut output = vec![HELD; size];
        assert_eq!(pool(&line, 100, &mut output), Ok(1));
        assert_eq!(output[..LINE], line);
        assert!(output[LINE..].iter().all(|&byte| byte == HELD));
    }
}

#[test]
fn their_numbers() {
    assert_eq!(Refusal::Register.number(), 16);
    assert_eq!(Refusal::Register.to_string(), "16");
    let below = Refusal::Discrepancy { difference: -5 };
    assert_eq!(below.number(), 17);
    assert_eq!(below.to_string(), "17 -5");
    let above = Refusal::Discrepancy { difference: 5 };
    assert_eq!(above.to_string(), "17 5");
}

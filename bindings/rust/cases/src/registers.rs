//! What a register is pooled with.

use crate::charges::{in_range, near_bounds, up_to, KOPECKS_MAX};
use crate::forms::{inn, inn_remainder, inn_weights};
use crate::random::Random;

/// The size of a register's line.
pub const LINE_SIZE: usize = 20;

/// The greatest number of a register's lines.
pub const LINES_MAX: usize = 500;

/// The least size of the output.
pub const POOL_SIZE: usize = LINES_MAX * LINE_SIZE;

/// The greatest amount of an order with a register, in kopecks.
pub const ORDER_MAX: u64 = 1_000_000_000_000_000;

/// The digits of an INN of 12, or other bytes in their place.
pub type Inn = [u8; 12];

/// A line of a register.
#[derive(Clone, Copy, Debug, PartialEq, Eq)]
pub struct Line {
    /// Whose line it is.
    pub inn: Inn,
    /// How much.
    pub kopecks: u64,
}

impl Line {
    /// The line's bytes.
    #[must_use]
    pub fn bytes(&self) -> [u8; LINE_SIZE] {
        let mut bytes = [0; LINE_SIZE];
        bytes[..12].copy_from_slice(&self.inn);
        bytes[12..].copy_from_slice(&self.kopecks.to_be_bytes());
        bytes
    }

    /// The line in these bytes.
    #[must_use]
    pub fn of(bytes: &[u8; LINE_SIZE]) -> Self {
        let (mut inn, mut kopecks) = ([0; 12], [0; 8]);
        inn.copy_from_slice(&bytes[..12]);
        kopecks.copy_from_slice(&bytes[12..]);
        Self {
            inn,
            kopecks: u64::from_be_bytes(kopecks),
        }
    }
}

/// The arguments of pooling, without the output.
#[derive(Clone, Debug, PartialEq, Eq)]
pub struct Pooling {
    /// The register's bytes.
    pub register: Vec<u8>,
    /// The order's amount, in kopecks.
    pub amount: u64,
}

impl Pooling {
    /// These lines, with an order of their total.
    #[must_use]
    pub fn new(lines: &[Line]) -> Self {
        Self::of(lines.iter().flat_map(Line::bytes).collect())
    }

    /// A register of these bytes, with an order of its total, or of the nearest amount in
    /// range.
    #[must_use]
    pub fn of(register: Vec<u8>) -> Self {
        let mut pooling = Self {
            register,
            amount: 0,
        };
        let total = pooling.total().clamp(1, ORDER_MAX.into());
        pooling.amount = total as u64;
        pooling
    }

    /// The whole lines.
    pub fn lines(&self) -> impl DoubleEndedIterator<Item = Line> + ExactSizeIterator + '_ {
        self.register.as_chunks().0.iter().map(Line::of)
    }

    /// The total of the whole lines.
    #[must_use]
    pub fn total(&self) -> u128 {
        self.lines().map(|line| u128::from(line.kopecks)).sum()
    }
}

/// The INN that begins with these ten digits; with leading zeros if there are fewer.
#[must_use]
pub fn inn_of(ten: u64) -> Inn {
    let mut inn = [b'0'; 12];
    inn[..10].copy_from_slice(format!("{ten:010}").as_bytes());
    set_check_digits(&mut inn);
    inn
}

fn set_check_digits(inn: &mut Inn) {
    for weights in inn_weights(12) {
        set_check_digit(inn, weights);
    }
}

fn set_check_digit(inn: &mut Inn, weights: &[u32]) {
    inn[weights.len()] = b'0' + (inn_remainder(inn, weights) % 10) as u8;
}

/// A register and its order: mostly in range and of one total, else mostly with one
/// thing wrong.
pub fn pooling(random: &mut Random) -> Pooling {
    let mut lines = lines_in_range(random);
    let any = random.below(lines.len());
    let place = random.pick(&[0, any, lines.len() - 1]);
    match random.below(24) {
        0..10 => Pooling::new(&lines),
        10..14 => with_another_amount(random, Pooling::new(&lines)),
        14..17 => {
            damage_inn(random, &mut lines[place].inn);
            Pooling::new(&lines)
        }
        17 | 18 => {
            lines[place].kopecks = near_bounds(random, KOPECKS_MAX);
            Pooling::new(&lines)
        }
        19 | 20 => resized(random, Pooling::new(&lines)),
        21 => {
            let count = random.pick(&[0, 501, 501, 502, 600]);
            Pooling::new(&register_of(random, count, 30))
        }
        22 => {
            damage_inn(random, &mut lines[place].inn);
            with_another_amount(random, Pooling::new(&lines))
        }
        _ => {
            lines[place].kopecks = random.pick(&[0, KOPECKS_MAX + 1, u64::MAX]);
            damage_inn(random, &mut lines[0].inn);
            let pooling = Pooling::new(&lines);
            resized(random, pooling)
        }
    }
}

/// Lines in range: one to 500, of one INN, of few or each of its own.
fn lines_in_range(random: &mut Random) -> Vec<Line> {
    let (any, few) = (1 + random.below(LINES_MAX), 1 + random.below(12));
    let count = random.pick(&[1, 2, few, few, few, 60, any, 499, 500]);
    let (any, few) = (1 + random.below(count), 1 + random.below(20));
    let inns = random.pick(&[1, 2, 3, few, any, count]).min(count);
    register_of(random, count, inns)
}

/// So many lines in range, of so many INNs.
pub fn register_of(random: &mut Random, count: usize, inns: usize) -> Vec<Line> {
    let inns = different(random, inns);
    let most = random.percent(10);
    let mut line = |place: usize| {
        let inn = match inns.get(place) {
            Some(inn) => *inn,
            None => random.pick(&inns),
        };
        let kopecks = match most {
            true => KOPECKS_MAX,
            false => in_range(random, KOPECKS_MAX).max(1),
        };
        Line { inn, kopecks }
    };
    let mut lines: Vec<Line> = (0..count).map(&mut line).collect();
    random.shuffle(&mut lines);
    lines
}

/// So many INNs: any, or some that are alike but for a few digits.
fn different(random: &mut Random, count: usize) -> Vec<Inn> {
    if random.percent(50) {
        let any = |_| {
            let mut digits = [0; 12];
            digits.copy_from_slice(&inn(random, 12));
            digits
        };
        return (0..count).map(any).collect();
    }
    let first = 100_000_000 + up_to(random, 9_000_000_000);
    let step = random.pick(&[1, 10, 1_000, 1_000_000]);
    let near = |place| inn_of(first + step * place);
    (0..count as u64).map(near).collect()
}

/// The order's amount off by one, at a bound, one beyond it, or any.
fn with_another_amount(random: &mut Random, mut pooling: Pooling) -> Pooling {
    let amount = pooling.amount;
    let in_range = 1 + up_to(random, ORDER_MAX - 1);
    let bounds = near_bounds(random, ORDER_MAX);
    let (more, less) = (amount.wrapping_add(1), amount.wrapping_sub(1));
    pooling.amount = random.pick(&[more, less, more, less, in_range, bounds, bounds]);
    pooling
}

/// A digit off, a check digit off alone, 00 in front of right check digits, twelve zeros,
/// or a byte that is no digit.
fn damage_inn(random: &mut Random, inn: &mut Inn) {
    let off = |digit: &mut u8| *digit = if *digit == b'9' { b'0' } else { *digit + 1 };
    let place = random.below(12);
    match random.below(7) {
        0 | 1 => off(&mut inn[place]),
        2 => off(&mut inn[11]),
        3 => {
            off(&mut inn[10]);
            set_check_digit(inn, inn_weights(12)[1]);
        }
        4 => {
            inn[..2].fill(b'0');
            set_check_digits(inn);
        }
        5 => inn.fill(b'0'),
        _ => inn[place] = random.pick(b"/: A\0\xFF"),
    }
}

/// The register cut, or with bytes behind it.
fn resized(random: &mut Random, mut pooling: Pooling) -> Pooling {
    let size = pooling.register.len();
    let any = random.below(size);
    let short = random.below(LINE_SIZE);
    let other = random.pick(&[size - 1, size + 1, size + 19, short, any]);
    pooling.register.resize(other, b'0');
    Pooling::of(pooling.register)
}

/// A size for the output: mostly the least.
pub fn pool_size(random: &mut Random) -> usize {
    let any = POOL_SIZE + random.below(200);
    let short = random.below(POOL_SIZE);
    match random.below(10) {
        0 => random.pick(&[0, LINE_SIZE, short, POOL_SIZE - LINE_SIZE, POOL_SIZE - 1]),
        1 => POOL_SIZE - 1,
        2 | 3 => random.pick(&[POOL_SIZE + 1, POOL_SIZE + LINE_SIZE, any]),
        _ => POOL_SIZE,
    }
}

#[cfg(test)]
mod tests {
    use super::*;

    fn is_inn(inn: &Inn) -> bool {
        let digits = inn.iter().all(u8::is_ascii_digit) && !inn.starts_with(b"00");
        let mut checked = *inn;
        digits && {
            set_check_digits(&mut checked);
            checked == *inn
        }
    }

    #[test]
    fn inns_have_their_check_digits() {
        assert_eq!(&inn_of(7_810_234_567), b"781023456779");
        assert_eq!(&inn_of(1_234_567_890), b"123456789047");
        assert_eq!(&inn_of(0), b"000000000000");
    }

    #[test]
    fn lines_in_range_are_in_range() {
        let random = &mut Random::new(12);
        for _ in 0..2_000 {
            let pooling = Pooling::new(&lines_in_range(random));
            assert!((1..=LINES_MAX).contains(&pooling.lines().len()));
            assert_eq!(pooling.register.len() % LINE_SIZE, 0);
            assert!((1..=ORDER_MAX).contains(&pooling.amount));
            assert_eq!(pooling.total(), u128::from(pooling.amount));
            for line in pooling.lines() {
                assert!(is_inn(&line.inn), "{line:?}");
                assert!((1..=KOPECKS_MAX).contains(&line.kopecks), "{line:?}");
            }
        }
    }

    #[test]
    fn lines_of_so_many_inns() {
        let random = &mut Random::new(12);
        for (count, most) in [(1, 1), (60, 20), (60, 60), (500, 30), (500, 500)] {
            let lines = register_of(random, count, most);
            let mut inns: Vec<Inn> = lines.iter().map(|line| line.inn).collect();
            inns.sort_unstable();
            inns.dedup();
            assert_eq!((lines.len(), inns.len()), (count, most));
        }
    }

    #[test]
    fn a_damaged_inn_is_none() {
        let random = &mut Random::new(12);
        for _ in 0..10_000 {
            let mut inn = different(random, 1)[0];
            damage_inn(random, &mut inn);
            assert!(!is_inn(&inn), "{}", inn.escape_ascii());
        }
    }
}

//! Charges, parts of a year, shares, registers and payments.

use cases::{inn_of, Line, Payment, Pooling, Queue};
use cases::{BALANCE_MAX, KOPECKS_MAX, LINES_MAX, PAYMENT_PLACES, POOL_SIZE, RATE_MAX};
use compare::{Library, Reference};
use kieselbrot::Refusal;

use crate::example::{Example, Kind};

/// All: the requests' examples, the ends of each range, and each refusal.
pub fn all() -> Vec<Example> {
    [charges(), parts(), shares(), pools(), leaves()].concat()
}

/// Numbers at the start of some bytes.
fn number_4(bytes: &[u8]) -> u32 {
    u32::from_be_bytes(bytes[..4].try_into().expect("four bytes"))
}

fn number_8(bytes: &[u8]) -> u64 {
    u64::from_be_bytes(bytes[..8].try_into().expect("eight bytes"))
}

fn bytes_4(numbers: &[u32]) -> Vec<u8> {
    numbers
        .iter()
        .flat_map(|number| number.to_be_bytes())
        .collect()
}

fn bytes_8(numbers: &[u64]) -> Vec<u8> {
    numbers
        .iter()
        .flat_map(|number| number.to_be_bytes())
        .collect()
}

fn numbers_shown<T: ToString>(numbers: &[T]) -> String {
    let shown = |number: &T| format!(" {}", number.to_string());
    numbers.iter().map(shown).collect()
}

/// `ok KOPECKS`, or the refusal.
pub fn charged(bytes: &[u8]) -> Vec<u8> {
    let [amount, rate, least, greatest] = [0, 8, 16, 24].map(|place| number_8(&bytes[place..]));
    match Reference.charge(amount, rate, least, greatest) {
        Ok(kopecks) => format!("ok {kopecks}").into_bytes(),
        Err(refusal) => refusal.numbers().to_string().into_bytes(),
    }
}

/// `ok KOPECKS REMAINDER`, or the refusal.
pub fn parted(bytes: &[u8]) -> Vec<u8> {
    let (days, year) = (number_4(&bytes[8..]), number_4(&bytes[12..]));
    match Reference.part(number_8(bytes), days, year) {
        Ok(part) => format!("ok {} {}", part.kopecks, part.remainder).into_bytes(),
        Err(refusal) => refusal.numbers().to_string().into_bytes(),
    }
}

/// `ok` or the refusal, and the twelve places, which held 7. There are 1, 2, 4 or 12 periods;
/// any other number stands for 13 of a day.
pub fn shared(bytes: &[u8]) -> Vec<u8> {
    let mut periods: Vec<u32> = bytes[12..].chunks_exact(4).map(number_4).collect();
    if ![1, 2, 4, 12].contains(&periods.len()) {
        periods = vec![1; 13];
    }
    let mut places = [7; 12];
    let shared = Reference.shares(
        number_8(bytes),
        number_4(&bytes[8..]),
        &periods,
        &mut places,
    );
    let answer = match shared {
        Ok(()) => "ok".to_owned(),
        Err(refusal) => refusal.numbers().to_string(),
    };
    (answer + &numbers_shown(&places)).into_bytes()
}

/// `ok LINES`, or the refusal, of which 17 has the difference where that is 1 or -1, and of others
/// says whether the register has more or less; and what stands at the first four lines of the
/// output and the last, which held dots, as INN and kopecks. The output is a byte short where the
/// ninth byte is 1.
pub fn pooled(bytes: &[u8]) -> Vec<u8> {
    let mut output = vec![b'.'; POOL_SIZE - usize::from(bytes[8] == 1)];
    let mut text = match Reference.pool(&bytes[9..], number_8(bytes), &mut output) {
        Ok(lines) => format!("ok {lines}"),
        Err(Refusal::Discrepancy { difference: 2.. }) => "17 more".to_owned(),
        Err(Refusal::Discrepancy { difference: ..-1 }) => "17 less".to_owned(),
        Err(refusal) => refusal.numbers().to_string(),
    }
    .into_bytes();
    // Past the end of a short output there is a 0.
    output.resize(POOL_SIZE, 0);
    for place in [0, 1, 2, 3, LINES_MAX - 1] {
        let (inn, kopecks) = output[20 * place..][..20].split_at(12);
        text.push(b' ');
        text.extend(inn);
        text.extend(format!(" {}", number_8(kopecks)).as_bytes());
    }
    text
}

/// `ok PAID SUM LEFT` or the refusal, and the first six of the places and the last, which held 7.
/// There are four arrival numbers and amounts, and any priorities; 65 of them stand for payments
/// of a kopeck that all arrive as number 1.
pub fn left(bytes: &[u8]) -> Vec<u8> {
    let priorities = bytes[56..].to_vec();
    let (arrivals, amounts) = match priorities.len() {
        65 => (vec![1; 65], vec![1; 65]),
        _ => (
            bytes[8..24].chunks_exact(4).map(number_4).collect(),
            bytes[24..56].chunks_exact(8).map(number_8).collect(),
        ),
    };
    let queue = Queue {
        balance: number_8(bytes),
        priorities,
        arrivals,
        amounts,
    };
    let mut places = [7; PAYMENT_PLACES];
    let answer = match Reference.leave(&queue, &mut places) {
        Ok(paid) => format!("ok {} {} {}", paid.count, paid.sum, paid.left),
        Err(refusal) => refusal.numbers().to_string(),
    };
    let last = places[PAYMENT_PLACES - 1];
    (answer + &numbers_shown(&places[..6]) + &format!(" {last}")).into_bytes()
}

/// Half kopecks, limits, the ends of each range, and one past each.
fn charges() -> Vec<Example> {
    let numbers: [[u64; 4]; 22] = [
        [100_000, 100, 0, KOPECKS_MAX],
        [50, 100, 0, 10],
        [49, 100, 0, 10],
        [150, 100, 0, 10],
        [250, 100, 0, 10],
        [100_000, 100, 2_000, 5_000],
        [100_000, 100, 0, 500],
        [100_000, 100, 500, 500],
        [100_000, 0, 0, 0],
        [100_000, 0, 7, 9],
        [1, 1, 0, KOPECKS_MAX],
        [1, RATE_MAX, 0, KOPECKS_MAX],
        [KOPECKS_MAX, RATE_MAX, 0, KOPECKS_MAX],
        [KOPECKS_MAX, RATE_MAX, KOPECKS_MAX, KOPECKS_MAX],
        [KOPECKS_MAX, 9_999, 0, KOPECKS_MAX],
        [0, 100, 0, 10],
        [KOPECKS_MAX + 1, 100, 0, 10],
        [100_000, RATE_MAX + 1, 0, 10],
        [100_000, 100, 11, 10],
        [100_000, 100, KOPECKS_MAX + 1, KOPECKS_MAX + 1],
        [100_000, 100, 0, KOPECKS_MAX + 1],
        [u64::MAX; 4],
    ];
    numbers
        .map(|numbers| {
            Example::new(
                Kind::Charge,
                format!("charge: {numbers:?}"),
                &bytes_8(&numbers),
            )
        })
        .to_vec()
}

/// Single days, whole years, remainders, the ends of each range, and one past each.
fn parts() -> Vec<Example> {
    let numbers: [(u64, u32, u32); 16] = [
        (365, 1, 365),
        (366, 1, 366),
        (100_000, 31, 365),
        (100_000, 31, 366),
        (100_000, 364, 365),
        (100_000, 365, 365),
        (100_000, 366, 366),
        (1, 1, 365),
        (KOPECKS_MAX, 1, 365),
        (KOPECKS_MAX, 366, 366),
        (0, 1, 365),
        (KOPECKS_MAX + 1, 1, 365),
        (100_000, 0, 365),
        (100_000, 366, 365),
        (100_000, 1, 364),
        (u64::MAX, u32::MAX, u32::MAX),
    ];
    let example = |(amount, days, year): (u64, u32, u32)| {
        let bytes = [bytes_8(&[amount]), bytes_4(&[days, year])].concat();
        Example::new(Kind::Part, format!("part: {amount} {days} {year}"), &bytes)
    };
    numbers.map(example).to_vec()
}

const MONTHS: [u32; 12] = [31, 28, 31, 30, 31, 30, 31, 31, 30, 31, 30, 31];

/// Months, quarters, one period; 13 periods, one of 0 days, a sum that is not the year.
fn shares() -> Vec<Example> {
    let example = |name: &str, amount, year, periods: &[u32]| {
        let bytes = [bytes_8(&[amount]), bytes_4(&[year]), bytes_4(periods)].concat();
        Example::new(Kind::Shares, format!("shares: {name}"), &bytes)
    };
    let leap: Vec<u32> = [&[31, 29], &MONTHS[2..]].concat();
    vec![
        example("months", 100_000, 365, &MONTHS),
        example("months of a leap year", 100_000, 366, &leap),
        example("quarters", KOPECKS_MAX, 365, &[90, 91, 92, 92]),
        example("one period", 100_000, 365, &[365]),
        example("a kopeck in two", 1, 366, &[365, 1]),
        example("amount 0", 0, 365, &MONTHS),
        example("amount past the greatest", KOPECKS_MAX + 1, 365, &MONTHS),
        example("a year of 364", 100_000, 364, &[364]),
        example("months in a leap year", 100_000, 366, &MONTHS),
        example("13 periods", 100_000, 365, &[1; 13]),
        example("a period of 0", 100_000, 365, &[0, 365]),
        example("a sum past 32 bits", 100_000, 365, &[u32::MAX, 366]),
    ]
}

fn pool(name: &str, pooling: &Pooling, size: usize) -> Example {
    let bytes = [
        &pooling.amount.to_be_bytes()[..],
        &[u8::from(size < POOL_SIZE)],
        &pooling.register,
    ];
    Example::new(Kind::Pool, format!("pool: {name}"), &bytes.concat())
}

/// A line of person `person`.
fn of(person: u64, kopecks: u64) -> Line {
    Line {
        inn: inn_of(7_700_000_000 + person),
        kopecks,
    }
}

/// Registers whose lines are pooled, the most lines, each refusal, and what is tested first.
fn pools() -> Vec<Example> {
    let two = [of(1, 100), of(2, 50), of(1, 7), of(3, 1), of(2, 50)];
    let right = Pooling::new(&two);
    let with = |amount| Pooling {
        amount,
        ..right.clone()
    };
    let cut = |size| Pooling {
        register: right.register[..size].to_vec(),
        ..right.clone()
    };
    let changed = |place: usize, byte| {
        let mut pooling = right.clone();
        pooling.register[place] = byte;
        pooling
    };
    let most: Vec<Line> = (0..LINES_MAX as u64)
        .map(|person| of(person, 1 + person))
        .collect();
    let one: Vec<Line> = vec![of(9, KOPECKS_MAX); LINES_MAX];
    let wrong = changed(0, b'8');
    vec![
        pool("five lines of three", &right, POOL_SIZE),
        pool("one line", &Pooling::new(&two[..1]), POOL_SIZE),
        pool("500 lines of one", &Pooling::new(&one), POOL_SIZE),
        pool("500 lines of 500", &Pooling::new(&most), POOL_SIZE),
        pool("an output a byte short", &right, POOL_SIZE - 1),
        pool(
            "an output a byte short for a wrong register",
            &wrong,
            POOL_SIZE - 1,
        ),
        pool("no register", &cut(0), POOL_SIZE),
        pool("a byte short", &cut(99), POOL_SIZE),
        pool("a wrong INN", &wrong, POOL_SIZE),
        pool("a line of 0 kopecks", &changed(79, 0), POOL_SIZE),
        pool("a line past the greatest", &changed(72, 255), POOL_SIZE),
        pool("501 lines", &Pooling::new(&vec![of(9, 1); 501]), POOL_SIZE),
        pool("an order of 0", &with(0), POOL_SIZE),
        pool(
            "an order past the greatest",
            &with(BALANCE_MAX + 1),
            POOL_SIZE,
        ),
        pool("a kopeck more than the order", &with(207), POOL_SIZE),
        pool("a kopeck less than the order", &with(209), POOL_SIZE),
        pool("as much less as can be", &with(BALANCE_MAX), POOL_SIZE),
        pool(
            "much more than the order",
            &Pooling {
                amount: 1,
                ..Pooling::new(&one)
            },
            POOL_SIZE,
        ),
    ]
}

fn leave(name: &str, queue: &Queue) -> Example {
    let bytes = [
        &queue.balance.to_be_bytes()[..],
        &bytes_4(&queue.arrivals),
        &bytes_8(&queue.amounts),
        &queue.priorities,
    ];
    Example::new(Kind::Leave, format!("leave: {name}"), &bytes.concat())
}

/// Priorities and arrivals, balances about sums; each refusal.
fn leaves() -> Vec<Example> {
    let payment = |(priority, arrival, amount)| Payment {
        priority,
        arrival,
        amount,
    };
    let four = [(3, 9, 100), (1, 0, 30), (3, 2, 20), (5, u32::MAX, 1)].map(payment);
    let right = Queue::new(150, &four);
    let mut examples: Vec<Example> = [0, 29, 30, 49, 50, 149, 150, 151, BALANCE_MAX]
        .map(|balance| {
            leave(
                &format!("a balance of {balance}"),
                &Queue::new(balance, &four),
            )
        })
        .to_vec();
    let mut queue = right.clone();
    let mut changed = |name: &str, change: fn(&mut Queue)| {
        queue.clone_from(&right);
        change(&mut queue);
        leave(name, &queue)
    };
    examples.extend([
        changed("a balance past the greatest", |queue| {
            queue.balance = BALANCE_MAX + 1
        }),
        changed("priority 0", |queue| queue.priorities[1] = 0),
        changed("priority 6", |queue| queue.priorities[3] = 6),
        changed("an amount of 0", |queue| queue.amounts[0] = 0),
        changed("an amount past the greatest", |queue| {
            queue.amounts[3] = KOPECKS_MAX + 1
        }),
        changed("a priority too few", |queue| queue.priorities.truncate(3)),
        changed("a priority too many", |queue| queue.priorities.push(1)),
        changed("no priority", |queue| queue.priorities.clear()),
        changed("65 payments", |queue| queue.priorities = vec![1; 65]),
        changed("two equal arrival numbers", |queue| queue.arrivals[3] = 9),
        changed("two equal arrival numbers and priority 0", |queue| {
            queue.arrivals[3] = 9;
            queue.priorities[0] = 0;
        }),
    ]);
    examples
}

#[cfg(test)]
mod tests {
    use super::*;
    use crate::example::has_line;

    #[track_caller]
    fn is(name: &str, line: &str) {
        has_line(&all(), name, line);
    }

    #[test]
    fn charges_by_half_kopecks_and_limits() {
        is("charge: [50, 100, 0, 10]", "ok 1");
        is("charge: [49, 100, 0, 10]", "ok 0");
        is("charge: [100000, 100, 2000, 5000]", "ok 2000");
        is("charge: [100000, 100, 0, 500]", "ok 500");
        is("charge: [100000, 100, 11, 10]", "14");
        is("charge: [0, 100, 0, 10]", "14");
    }

    #[test]
    fn parts_and_remainders() {
        is("part: 100000 31 365", "ok 8493 55");
        is("part: 1 1 365", "ok 0 1");
        is("part: 100000 366 365", "15");
    }

    #[test]
    fn shares_sum_to_the_amount() {
        is("shares: a kopeck in two", "ok 0 1 0 0 0 0 0 0 0 0 0 0");
        for name in ["13 periods", "a period of 0", "a sum past 32 bits"] {
            is(&format!("shares: {name}"), "15 7 7 7 7 7 7 7 7 7 7 7 7");
        }
    }

    #[test]
    fn registers() {
        let dots = " ............ 3327647950551526958";
        for (name, answer) in [
            ("no register", "16"),
            ("a byte short", "16"),
            ("a wrong INN", "16"),
            ("501 lines", "16"),
            ("an order of 0", "16"),
            ("a kopeck more than the order", "17 1"),
            ("a kopeck less than the order", "17 -1"),
            ("as much less as can be", "17 less"),
            ("much more than the order", "17 more"),
        ] {
            is(
                &format!("pool: {name}"),
                &(answer.to_owned() + &dots.repeat(5)),
            );
        }
        for name in [
            "an output a byte short",
            "an output a byte short for a wrong register",
        ] {
            let line = format!("7{} ............ 3327647950551526912", dots.repeat(4));
            is(&format!("pool: {name}"), &line);
        }
        let inn = |person| String::from_utf8_lossy(&of(person, 1).inn).into_owned();
        let rows = format!(" {} 107 {} 100 {} 1", inn(1), inn(2), inn(3));
        let line = format!("ok 3{rows}{}", dots.repeat(2));
        is("pool: five lines of three", &line);
    }

    #[test]
    fn payments_that_leave() {
        let order = "0 2 9 4294967295 0 0 0";
        is("leave: a balance of 0", &format!("ok 0 0 0 {order}"));
        is("leave: a balance of 149", &format!("ok 2 50 99 {order}"));
        is("leave: a balance of 151", &format!("ok 4 151 0 {order}"));
        for (name, number) in [
            ("a balance past the greatest", 18),
            ("priority 0", 18),
            ("priority 6", 18),
            ("a priority too few", 18),
            ("no priority", 18),
            ("two equal arrival numbers", 19),
            ("two equal arrival numbers and priority 0", 18),
            ("65 payments", 18),
        ] {
            is(
                &format!("leave: {name}"),
                &format!("{number} 7 7 7 7 7 7 7"),
            );
        }
    }
}

//! What a register and its order are, and what became of them.

use std::collections::HashMap;
use std::fmt;

use cases::{Inn, Line, Pooling, KOPECKS_MAX, LINES_MAX, LINE_SIZE, ORDER_MAX, POOL_SIZE};
use kieselbrot::Refusal;

use crate::charges::{Value, VALUES};
use crate::shares::{Place, PLACES};

/// What pooling reached.
#[derive(Clone, Copy, Debug, PartialEq, Eq, PartialOrd, Ord)]
pub enum Pooled {
    /// The order's amount had this value: where nothing was refused with 16 if it is in
    /// range, and otherwise where it alone was.
    Amount(Value),
    /// A line's kopecks had this value: in a register that was pooled if it is in range,
    /// and otherwise in one that was refused for it alone.
    Kopecks(Value),
    /// The same of a line's INN.
    Inn(Digits),
    /// The line that alone was refused stood here.
    WrongLine(Place),
    /// A register of so many lines was pooled.
    Lines(usize),
    /// A register of another size was refused for it alone.
    Size(Size),
    /// The output was of this size: where lines were pooled if it has the places, and
    /// otherwise where it alone was refused.
    Room(Room),
    /// 7 was answered where 16 or 17 would have been else.
    Before16,
    Before17,
    /// 16 was answered of a register or amount whose total differs.
    SixteenBefore17,
    /// The total less the order's amount.
    Difference(Sign, bool),
    /// All lines were of one INN; each had its own; some were of one, some of another.
    OneInn,
    EachItsOwn,
    SomeOfOne,
    /// There are 500 pooled lines.
    Most,
    /// A pooled sum is above a line's greatest; it is the greatest that there is.
    AboveALine,
    GreatestSum,
    /// The order of first appearance is not that of the INNs; nor that of the last one.
    NotByInn,
    NotByLast,
    /// The last line's INN is new; it is one of those before.
    LastNew,
    LastAgain,
    /// The output past the pooled lines held something; it held an INN of the register.
    Rest,
    Stale,
    /// A refusal left an output that held something.
    Kept,
}

/// What the INN of a line is. One of two check digits is right by a remainder of 10;
/// one alone is wrong; both are; they are right behind 00; all are zeros; a byte is no
/// digit.
#[derive(Clone, Copy, Debug, PartialEq, Eq, PartialOrd, Ord)]
pub enum Digits {
    Right,
    Leaves10(usize),
    Off(usize),
    BothOff,
    Behind00,
    Zeros,
    NoDigit,
}

/// What the size of a register is that is not of 1 to 500 whole lines.
#[derive(Clone, Copy, Debug, PartialEq, Eq, PartialOrd, Ord)]
pub enum Size {
    Empty,
    UnderALine,
    ByteShort,
    ByteMore,
    Broken,
    LineMore,
    LinesMore,
}

/// What the size of an output is.
#[derive(Clone, Copy, Debug, PartialEq, Eq, PartialOrd, Ord)]
pub enum Room {
    Empty,
    Short,
    LineShort,
    ByteShort,
    Least,
    ByteMore,
    LineMore,
    More,
}

/// Which of two totals is greater.
#[derive(Clone, Copy, Debug, PartialEq, Eq, PartialOrd, Ord)]
pub enum Sign {
    RegisterMore,
    OrderMore,
}

const DIGITS: [Digits; 9] = [
    Digits::Right,
    Digits::Leaves10(11),
    Digits::Leaves10(12),
    Digits::Off(11),
    Digits::Off(12),
    Digits::BothOff,
    Digits::Behind00,
    Digits::Zeros,
    Digits::NoDigit,
];

/// The numbers of lines that must be reached.
const LINES: [usize; 4] = [1, 2, LINES_MAX - 1, LINES_MAX];

const SIZES: [Size; 7] = [
    Size::Empty,
    Size::UnderALine,
    Size::ByteShort,
    Size::ByteMore,
    Size::Broken,
    Size::LineMore,
    Size::LinesMore,
];

const ROOMS: [Room; 8] = [
    Room::Empty,
    Room::Short,
    Room::LineShort,
    Room::ByteShort,
    Room::Least,
    Room::ByteMore,
    Room::LineMore,
    Room::More,
];

/// With the difference being one kopeck, or more.
const DIFFERENCES: [Pooled; 4] = [
    Pooled::Difference(Sign::RegisterMore, true),
    Pooled::Difference(Sign::RegisterMore, false),
    Pooled::Difference(Sign::OrderMore, true),
    Pooled::Difference(Sign::OrderMore, false),
];

const OTHERS: [Pooled; 16] = [
    Pooled::Before16,
    Pooled::Before17,
    Pooled::SixteenBefore17,
    Pooled::OneInn,
    Pooled::EachItsOwn,
    Pooled::SomeOfOne,
    Pooled::Most,
    Pooled::AboveALine,
    Pooled::GreatestSum,
    Pooled::NotByInn,
    Pooled::NotByLast,
    Pooled::LastNew,
    Pooled::LastAgain,
    Pooled::Rest,
    Pooled::Stale,
    Pooled::Kept,
];

/// All that must be reached.
pub fn all() -> impl Iterator<Item = Pooled> {
    let amounts = VALUES.into_iter().map(Pooled::Amount);
    amounts
        .chain(VALUES.map(Pooled::Kopecks))
        .chain(DIGITS.map(Pooled::Inn))
        .chain(PLACES.map(Pooled::WrongLine))
        .chain(LINES.map(Pooled::Lines))
        .chain(SIZES.map(Pooled::Size))
        .chain(ROOMS.map(Pooled::Room))
        .chain(DIFFERENCES)
        .chain(OTHERS)
}

impl fmt::Display for Pooled {
    fn fmt(&self, f: &mut fmt::Formatter<'_>) -> fmt::Result {
        match self {
            Self::Amount(value) => write!(f, "amount {value:?}"),
            Self::Kopecks(value) => write!(f, "a line's kopecks {value:?}"),
            Self::Inn(digits) => write!(f, "an INN {digits:?}"),
            Self::WrongLine(place) => write!(f, "a wrong line {place:?}"),
            Self::Lines(1) => write!(f, "1 line"),
            Self::Lines(count) => write!(f, "{count} lines"),
            Self::Size(size) => write!(f, "a register {size:?}"),
            Self::Room(room) => write!(f, "an output {room:?}"),
            Self::Before16 => write!(f, "7 before 16"),
            Self::Before17 => write!(f, "7 before 17"),
            Self::SixteenBefore17 => write!(f, "16 before 17"),
            Self::Difference(sign, true) => write!(f, "{sign:?} by one"),
            Self::Difference(sign, false) => write!(f, "{sign:?} by more"),
            other => write!(f, "{other:?}"),
        }
    }
}

impl Digits {
    fn of(inn: &Inn) -> Self {
        if !inn.iter().all(u8::is_ascii_digit) {
            return Self::NoDigit;
        }
        let remainder = |weights: &&&[u32]| cases::inn_remainder(inn, weights);
        let off =
            |weights: &&&[u32]| u32::from(inn[weights.len()] - b'0') != remainder(weights) % 10;
        let weights = cases::inn_weights(12);
        let mut wrong = weights.iter().filter(off);
        match (wrong.next(), wrong.next()) {
            (None, _) if inn == b"000000000000" => Self::Zeros,
            (None, _) if inn.starts_with(b"00") => Self::Behind00,
            (None, _) => {
                let ten = weights.iter().find(|weights| remainder(weights) == 10);
                ten.map_or(Self::Right, |weights| Self::Leaves10(weights.len() + 1))
            }
            (Some(weights), None) => Self::Off(weights.len() + 1),
            _ => Self::BothOff,
        }
    }

    const fn is_right(self) -> bool {
        matches!(self, Self::Right | Self::Leaves10(_))
    }
}

impl Size {
    /// What is wrong with a register of so many bytes.
    const fn of(bytes: usize) -> Option<Self> {
        match (bytes / LINE_SIZE, bytes % LINE_SIZE) {
            (0, 0) => Some(Self::Empty),
            (0, _) => Some(Self::UnderALine),
            (_, 19) => Some(Self::ByteShort),
            (_, 1) => Some(Self::ByteMore),
            (_, 2..) => Some(Self::Broken),
            (..=LINES_MAX, _) => None,
            (501, _) => Some(Self::LineMore),
            _ => Some(Self::LinesMore),
        }
    }
}

impl Room {
    const fn of(bytes: usize) -> Self {
        match bytes {
            0 => Self::Empty,
            9_980 => Self::LineShort,
            9_999 => Self::ByteShort,
            POOL_SIZE => Self::Least,
            10_001 => Self::ByteMore,
            10_020 => Self::LineMore,
            _ if bytes < POOL_SIZE => Self::Short,
            _ => Self::More,
        }
    }
}

/// What pooling reached, by its arguments, by what the output held before and holds
/// afterwards, and by the answer.
pub fn reached(
    pooling: &Pooling,
    before: &[u8],
    after: &[u8],
    answer: Result<usize, Refusal>,
) -> Vec<Pooled> {
    let room = Pooled::Room(Room::of(before.len()));
    let mut reached = match answer {
        Ok(count) => {
            let mut reached = vec![amount(pooling), room];
            reached.extend(lines(pooling));
            reached.extend(made(pooling, before, &after[..LINE_SIZE * count]));
            reached
        }
        Err(Refusal::Output) => match (causes(pooling).len(), differs(pooling)) {
            (0, false) => vec![room],
            (0, true) => vec![Pooled::Before17],
            _ => vec![Pooled::Before16],
        },
        Err(Refusal::Discrepancy { difference }) => {
            let sign = match difference > 0 {
                true => Sign::RegisterMore,
                false => Sign::OrderMore,
            };
            let by_one = difference.unsigned_abs() == 1;
            vec![amount(pooling), Pooled::Difference(sign, by_one)]
        }
        Err(_) => {
            let mut causes = causes(pooling);
            let first = differs(pooling).then_some(Pooled::SixteenBefore17);
            // Two causes say nothing of either.
            causes.truncate(if causes.len() == 1 { 1 } else { 0 });
            let causes = causes.into_iter();
            let alone =
                causes.flat_map(|(cause, place)| [Some(cause), place.map(Pooled::WrongLine)]);
            alone.flatten().chain(first).collect()
        }
    };
    let held = answer.is_err() && before.iter().any(|&byte| byte != 0);
    reached.extend(held.then_some(Pooled::Kept));
    reached
}

fn amount(pooling: &Pooling) -> Pooled {
    Pooled::Amount(Value::of(pooling.amount, ORDER_MAX, u64::MAX))
}

fn kopecks(line: &Line) -> Pooled {
    Pooled::Kopecks(Value::of(line.kopecks, KOPECKS_MAX, u64::MAX))
}

fn differs(pooling: &Pooling) -> bool {
    pooling.total() != u128::from(pooling.amount)
}

/// All causes of 16; those that are of a line with its place.
fn causes(pooling: &Pooling) -> Vec<(Pooled, Option<Place>)> {
    let mut causes = Vec::new();
    if !(1..=ORDER_MAX).contains(&pooling.amount) {
        causes.push((amount(pooling), None));
    }
    let size = Size::of(pooling.register.len());
    causes.extend(size.map(|size| (Pooled::Size(size), None)));
    let count = pooling.lines().len();
    for (place, line) in pooling.lines().enumerate() {
        let place = Some(Place::of(place, count));
        let digits = Digits::of(&line.inn);
        if !digits.is_right() {
            causes.push((Pooled::Inn(digits), place));
        }
        if !(1..=KOPECKS_MAX).contains(&line.kopecks) {
            causes.push((kopecks(&line), place));
        }
    }
    causes
}

/// What the lines of a register that was pooled are.
fn lines(pooling: &Pooling) -> Vec<Pooled> {
    let of_lines = |line: Line| [kopecks(&line), Pooled::Inn(Digits::of(&line.inn))];
    let mut lines: Vec<Pooled> = pooling.lines().flat_map(of_lines).collect();
    lines.sort_unstable();
    lines.dedup();
    let count = pooling.lines().len();
    lines.extend(LINES.contains(&count).then_some(Pooled::Lines(count)));
    lines
}

/// What pooled lines reached.
fn made(pooling: &Pooling, before: &[u8], pooled: &[u8]) -> Vec<Pooled> {
    let pooled: Vec<Line> = pooled.as_chunks().0.iter().map(Line::of).collect();
    let places = pooling.lines().enumerate();
    let last: HashMap<Inn, usize> = places.map(|(place, line)| (line.inn, place)).collect();
    let (count, lines) = (pooled.len(), pooling.lines().len());
    let greatest = pooled.iter().map(|line| line.kopecks).max();
    let greatest = greatest.unwrap_or_default();
    let ends_new = pooling.lines().next_back().is_some_and(|end| {
        let same = |line: &Line| line.inn == end.inn;
        pooling.lines().filter(same).count() == 1
    });
    let rest = &before[LINE_SIZE * count..];
    let first = pooled.first().map(|line| line.inn);
    let stale = rest.chunks(LINE_SIZE).any(|held| {
        let same = |inn: Inn| held.starts_with(&inn);
        first.is_some_and(same)
    });
    let mut reached = Vec::new();
    let mut reach = |what, when: bool| reached.extend(when.then_some(what));
    reach(Pooled::OneInn, count == 1 && lines > 1);
    reach(Pooled::EachItsOwn, count == lines && lines > 1);
    reach(Pooled::SomeOfOne, count > 1 && count < lines);
    reach(Pooled::Most, count == LINES_MAX);
    reach(Pooled::AboveALine, greatest > KOPECKS_MAX);
    reach(Pooled::GreatestSum, greatest == 500 * KOPECKS_MAX);
    reach(Pooled::NotByInn, !pooled.is_sorted_by_key(|line| line.inn));
    reach(
        Pooled::NotByLast,
        !pooled.is_sorted_by_key(|line| last.get(&line.inn)),
    );
    reach(Pooled::LastNew, ends_new && lines > 1);
    reach(Pooled::LastAgain, !ends_new);
    reach(Pooled::Rest, rest.iter().any(|&byte| byte != 0));
    reach(Pooled::Stale, stale);
    reached
}

#[cfg(test)]
mod tests {
    use super::*;

    const A: Inn = *b"781023456779";
    const B: Inn = *b"123456789047";
    const HELD: [u8; POOL_SIZE] = [9; POOL_SIZE];

    fn pooling(lines: &[(Inn, u64)]) -> Pooling {
        let line = |&(inn, kopecks): &(Inn, u64)| Line { inn, kopecks };
        Pooling::new(&lines.iter().map(line).collect::<Vec<_>>())
    }

    #[test]
    fn pooled_lines_reach_their_arguments_and_more() {
        let register = pooling(&[(A, 5), (B, 1), (A, KOPECKS_MAX)]);
        let mut after = HELD;
        let pooled = pooling(&[(A, KOPECKS_MAX + 5), (B, 1)]).register;
        after[..2 * LINE_SIZE].copy_from_slice(&pooled);
        let expected = [
            Pooled::Amount(Value::Between),
            Pooled::Room(Room::Least),
            Pooled::Kopecks(Value::One),
            Pooled::Kopecks(Value::Between),
            Pooled::Kopecks(Value::AtTheBound),
            Pooled::Inn(Digits::of(&A)),
            Pooled::Inn(Digits::of(&B)),
            Pooled::SomeOfOne,
            Pooled::AboveALine,
            Pooled::NotByInn,
            Pooled::NotByLast,
            Pooled::LastAgain,
            Pooled::Rest,
        ];
        let mut answer = reached(&register, &HELD, &after, Ok(2));
        answer.dedup();
        let mut expected = expected.to_vec();
        expected.dedup();
        assert_eq!(answer, expected);
    }

    #[test]
    fn a_refused_register_reaches_its_only_cause() {
        let refused = |pooling: &Pooling| {
            let mut reached = reached(pooling, &HELD, &HELD, Err(Refusal::Register));
            assert_eq!(reached.pop(), Some(Pooled::Kept));
            reached
        };
        let of = |inn: &[u8; 12]| refused(&pooling(&[(A, 1), (*inn, 1)]));
        let wrong = |what| vec![what, Pooled::WrongLine(Place::Last)];
        let digits = |digits| wrong(Pooled::Inn(digits));
        assert_eq!(of(b"781023456789"), digits(Digits::BothOff));
        assert_eq!(of(b"781023456778"), digits(Digits::Off(12)));
        assert_eq!(of(b"000000000000"), digits(Digits::Zeros));
        assert_eq!(of(b"78102345677 "), digits(Digits::NoDigit));
        let zero = refused(&pooling(&[(A, 1), (B, 0)]));
        assert_eq!(zero, wrong(Pooled::Kopecks(Value::Zero)));
        let three = pooling(&[(A, 1); 3]);
        let size = |bytes| {
            let mut register = three.register.clone();
            register.resize(bytes, b'0');
            refused(&Pooling::of(register))
        };
        assert_eq!(size(59), [Pooled::Size(Size::ByteShort)]);
        assert_eq!(size(61), [Pooled::Size(Size::ByteMore)]);
        let expected = [Pooled::Size(Size::Empty), Pooled::SixteenBefore17];
        assert_eq!(size(0), expected);
        let amount = ORDER_MAX + 1;
        let expected = [Pooled::Amount(Value::OneBeyond), Pooled::SixteenBefore17];
        assert_eq!(refused(&Pooling { amount, ..three }), expected);
        // Two causes say nothing of either.
        assert_eq!(refused(&pooling(&[(A, 0), (*b"781023456778", 1)])), []);
    }
}

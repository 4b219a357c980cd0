//! What writing and reading MT103 lines reached.

use std::fmt;

use cases::{lines_of, Dates, Texts, ALL_STATUSES, CLASS_A, LINE_FIELDS, LINE_LENGTHS};
use cases::{LISTS, MARKS};
use kieselbrot::{Class, Refusal};

use crate::dates::{shown, List};
use crate::library::{Library, Reference};
use crate::reached::text_of;

/// What was reached.
#[derive(Clone, Copy, Debug, PartialEq, Eq, PartialOrd, Ord)]
pub enum Lined {
    /// Lines of this length are written into a buffer with this room.
    Written(usize, Room),
    /// Lines of this length are read.
    Read(usize),
    /// Lines with this status, by its place among all.
    Status(Way, usize),
    /// Lines with this account, by its place in class A.
    Account(Way, usize),
    /// Lines are written at dates with this list.
    At(List),
    /// 02, 32 or 33, counted from 0, is written on its last or first date.
    OnItsDate(usize),
    /// It is refused a day off.
    ADayOff(usize),
    /// Refused with the first number, though the second, tested later, would refuse it, too.
    Ahead(u8, u8),
    /// Writing is refused with 11 for an accepted sheet of this class, with room in the
    /// buffer.
    ClassWritten(Class),
    /// 7 with so much room.
    TooShort(Room),
    /// A block of lines is refused with 7 for the sheet's size.
    SheetSize,
    /// A block is refused with 11 for this.
    Block(Block),
}

/// Which of the two.
#[derive(Clone, Copy, Debug, PartialEq, Eq, PartialOrd, Ord)]
pub enum Way {
    /// Writing.
    Written,
    /// Reading.
    Read,
}

/// How long a buffer is.
#[derive(Clone, Copy, Debug, PartialEq, Eq, PartialOrd, Ord)]
pub enum Room {
    /// Of no bytes.
    None,
    /// A byte shorter than the lines.
    OneShort,
    /// As long as the lines.
    Exact,
    /// Longer.
    More,
}

/// What is wrong with a block.
#[derive(Clone, Copy, Debug, PartialEq, Eq, PartialOrd, Ord)]
pub enum Block {
    /// It has no bytes.
    Empty,
    /// It is too long for lines.
    Long,
    /// This fixed string alone is not in its place.
    Mark(usize),
    /// All are in their places, and this is the first broken rule.
    Rule(u8),
    /// There is no text of field 22.
    NoCode,
    /// The texts make this class.
    OfClass(Class),
    /// The last line feed alone is missing.
    LastFeed,
    /// Its lines are ended by CR LF.
    CrLf,
    /// Something follows the lines.
    Trailing,
    /// This line alone is missing.
    Missing(usize),
    /// A line alone is doubled.
    Doubled,
    /// The lines are in another order.
    Moved,
}

/// What is tested earlier, and what would be refused later: of the writer, then of the
/// reader.
const AHEAD: [(u8, u8); 9] = [
    (1, 12),
    (1, 7),
    (12, 8),
    (12, 11),
    (12, 7),
    (8, 11),
    (8, 7),
    (11, 7),
    (7, 11),
];

/// The rules that the reader asks.
const RULES: [u8; 8] = [1, 2, 3, 5, 7, 9, 10, 12];

/// All that must be reached.
pub fn all() -> impl Iterator<Item = Lined> {
    let lengths = LINE_LENGTHS.into_iter().flat_map(|length| {
        [
            Lined::Written(length, Room::Exact),
            Lined::Written(length, Room::More),
            Lined::Read(length),
        ]
    });
    let ways = [Way::Written, Way::Read].into_iter().flat_map(|way| {
        let statuses = (0..ALL_STATUSES.len()).map(move |place| Lined::Status(way, place));
        statuses.chain((0..CLASS_A.len()).map(move |place| Lined::Account(way, place)))
    });
    let dated = (0..3).flat_map(|place| [Lined::OnItsDate(place), Lined::ADayOff(place)]);
    let blocks = [
        Block::Empty,
        Block::Long,
        Block::NoCode,
        Block::OfClass(Class::B),
        Block::OfClass(Class::O),
        Block::LastFeed,
        Block::CrLf,
        Block::Trailing,
        Block::Doubled,
        Block::Moved,
    ];
    let blocks = blocks
        .into_iter()
        .chain((0..MARKS.len()).map(Block::Mark))
        .chain(RULES.map(Block::Rule))
        .chain((0..5).map(Block::Missing));
    lengths
        .chain(ways)
        .chain(LISTS.map(Lined::At))
        .chain(dated)
        .chain(AHEAD.map(|(first, later)| Lined::Ahead(first, later)))
        .chain([Class::B, Class::O].map(Lined::ClassWritten))
        .chain([Room::None, Room::OneShort].map(Lined::TooShort))
        .chain([Lined::SheetSize])
        .chain(blocks.map(Lined::Block))
}

impl fmt::Display for Lined {
    fn fmt(&self, f: &mut fmt::Formatter<'_>) -> fmt::Result {
        let of_three = |place: &usize| ["02", "32", "33"][*place];
        match self {
            Self::Written(length, room) => write!(f, "{length} written, room {room:?}"),
            Self::Read(length) => write!(f, "{length} read"),
            Self::Status(way, place) => write!(f, "{} {way:?}", ALL_STATUSES[*place]),
            Self::Account(way, place) => write!(f, "{} {way:?}", CLASS_A[*place]),
            Self::At(list) => write!(f, "with {}", shown(*list)),
            Self::OnItsDate(place) => write!(f, "{} on its date", of_three(place)),
            Self::ADayOff(place) => write!(f, "{} a day off", of_three(place)),
            Self::Ahead(first, later) => write!(f, "{first} ahead of {later}"),
            Self::ClassWritten(class) => write!(f, "11, class {class:?}"),
            Self::TooShort(room) => write!(f, "7, room {room:?}"),
            Self::SheetSize => write!(f, "7, the sheet alone"),
            Self::Block(block) => write!(f, "11, {block:?}"),
        }
    }
}

/// The status and the account of lines, by a sheet's texts.
fn status_and_account(way: Way, sheet: &[u8]) -> impl Iterator<Item = Lined> {
    let place = |list: &[&str], field| {
        let text = text_of(sheet, field);
        list.iter()
            .position(|entry| text.starts_with(entry.as_bytes()))
    };
    let status = place(&ALL_STATUSES, 101).map(|place| Lined::Status(way, place));
    let account = place(&CLASS_A, 17).map(|place| Lined::Account(way, place));
    status.into_iter().chain(account)
}

/// What writing the lines of a sheet into a buffer of this size reached.
pub fn written(
    sheet: &[u8],
    dates: Dates,
    size: usize,
    answer: Result<usize, Refusal>,
) -> Vec<Lined> {
    let short = size < LINE_LENGTHS[0];
    let mut reached = match answer {
        Ok(length) => {
            let room = match size > length {
                true => Room::More,
                false => Room::Exact,
            };
            let dated = end_of(sheet, dates, |order, end, _| order == end);
            return [Lined::Written(length, room), Lined::At(dates.allowed())]
                .into_iter()
                .chain(status_and_account(Way::Written, sheet))
                .chain(dated.map(Lined::OnItsDate))
                .collect();
        }
        Err(Refusal::Malformed) if !dates.fit() => vec![Lined::Ahead(1, 12)],
        Err(Refusal::Undated) => match Reference.check(sheet, Dates::PROGRAM) {
            Err(_) => vec![Lined::Ahead(12, 8)],
            Ok(Class::B | Class::O) => vec![Lined::Ahead(12, 11)],
            Ok(Class::A) => vec![],
        },
        Err(Refusal::Broken { rule, .. }) => {
            let other_class = rule > 3 && !is_class_a(sheet);
            let off = end_of(sheet, dates, |_, _, a_day_off| a_day_off);
            let ahead = other_class.then_some(Lined::Ahead(8, 11));
            let off = off.filter(|_| rule == 10).map(Lined::ADayOff);
            ahead.into_iter().chain(off).collect()
        }
        Err(Refusal::NoLines) if !short => match Reference.check(sheet, dates) {
            Ok(class) => vec![Lined::ClassWritten(class)],
            Err(_) => vec![],
        },
        Err(Refusal::Output) => too_short(sheet, size),
        Err(_) => vec![],
    };
    if let (Some(refusal), true) = (answer.err(), short) {
        if refusal != Refusal::Output {
            reached.push(Lined::Ahead(refusal.number(), 7));
        }
    }
    reached
}

fn too_short(sheet: &[u8], size: usize) -> Vec<Lined> {
    let length = lines_of(&Texts::of(sheet)).len();
    let room = match size {
        0 => Some(Room::None),
        size if size + 1 == length => Some(Room::OneShort),
        _ => None,
    };
    room.map(Lined::TooShort).into_iter().collect()
}

/// Whether a sheet that keeps rules 1 to 3 is of class A.
pub fn is_class_a(sheet: &[u8]) -> bool {
    let account = text_of(sheet, 17);
    let listed = |begin: &&str| account.starts_with(begin.as_bytes());
    text_of(sheet, 15).starts_with(b"40102") && CLASS_A.iter().any(listed)
}

/// Which of 02, 32 and 33 a sheet has, counted from 0, if the order's date and its entry,
/// and whether it is a day too late or early, are so.
fn end_of(sheet: &[u8], dates: Dates, is: fn(u32, u32, bool) -> bool) -> Option<usize> {
    let order = dates.order;
    let (place, end, off) = match text_of(sheet, 101) {
        b"02" => (0, dates.last02, cases::day_before(order)),
        b"32" => (1, dates.first32, cases::day_after(order)),
        b"33" => (2, dates.first33, cases::day_after(order)),
        _ => return None,
    };
    is(order, end, end == off).then_some(place)
}

/// What reading a block reached.
pub fn read(block: &[u8], answer: Result<(), Refusal>) -> Vec<Lined> {
    match answer {
        Ok(()) => {
            let status = texts_in(block).sheet();
            let status = status_and_account(Way::Read, &status);
            [Lined::Read(block.len())]
                .into_iter()
                .chain(status)
                .collect()
        }
        Err(Refusal::Output) if reads(block) => vec![Lined::SheetSize],
        Err(Refusal::Output) => vec![Lined::Ahead(7, 11)],
        Err(_) => wrong(block).into_iter().map(Lined::Block).collect(),
    }
}

fn reads(block: &[u8]) -> bool {
    Reference.read_lines(block, &mut [0; 390]).is_ok()
}

/// Where the texts stand in lines: behind each fixed string, as wide as they are there.
fn places(block: &[u8]) -> [(usize, usize); 7] {
    let code = block.len().saturating_sub(112);
    let mut from = 0;
    let mut marks = MARKS.iter();
    [2, 9, 20, 20, 10, 9, code].map(|width| {
        from += marks.next().map_or(0, |mark| mark.len());
        let place = (from, from + width);
        from += width;
        place
    })
}

/// The texts of a block of 112 to 137 bytes, by their places alone.
fn texts_in(block: &[u8]) -> Texts {
    let texts = LINE_FIELDS.into_iter().zip(places(block));
    texts.fold(Texts::BLANK, |texts, (field, (from, to))| {
        texts.with(field, &block[from..to])
    })
}

/// All that is wrong with a block that is refused.
fn wrong(block: &[u8]) -> Vec<Block> {
    let size = match block.len() {
        0 => Some(Block::Empty),
        112..=137 => in_places(block),
        138.. => Some(Block::Long),
        _ => None,
    };
    let ended = [block, b"\n"].concat();
    let shapes = [
        (Block::LastFeed, reads(&ended)),
        (Block::CrLf, reads_without_returns(block)),
    ];
    let shapes = shapes.into_iter().filter(|&(_, is)| is);
    size.into_iter()
        .chain(shapes.map(|(shape, _)| shape))
        .chain(by_lines(block))
        .collect()
}

/// The one fixed string that is not in its place, or what is wrong with the texts.
fn in_places(block: &[u8]) -> Option<Block> {
    let starts = places(block).map(|(from, _)| from);
    let ends = starts.into_iter().chain([block.len()]);
    let there = |(mark, end): (&&[u8], usize)| block[..end].ends_with(mark);
    let wrong: Vec<usize> = MARKS
        .iter()
        .zip(ends)
        .enumerate()
        .filter_map(|(place, mark)| (!there(mark)).then_some(place))
        .collect();
    match wrong[..] {
        [] => in_texts(block),
        [mark] => Some(Block::Mark(mark)),
        _ => None,
    }
}

/// What is wrong with the texts: the others are S's, which break no rule up to 12.
fn in_texts(block: &[u8]) -> Option<Block> {
    let texts = texts_in(block);
    let order = LINE_FIELDS.into_iter().fold(Texts::s(), |order, field| {
        order.with(field, &texts.get(field))
    });
    let all = Dates::PROGRAM.allowing([true; 3]);
    match Reference.check(&order.sheet(), all) {
        Ok(class) => Some(Block::OfClass(class)),
        Err(Refusal::Broken { rule: 4, .. }) => Some(Block::OfClass(Class::O)),
        Err(Refusal::Broken { rule: 6, .. }) => Some(Block::NoCode),
        Err(Refusal::Broken { rule, .. }) if RULES.contains(&rule) => Some(Block::Rule(rule)),
        Err(_) => None,
    }
}

fn reads_without_returns(block: &[u8]) -> bool {
    block.contains(&b'\r') && {
        let kept = block.iter().copied().filter(|&byte| byte != b'\r');
        reads(&kept.collect::<Vec<u8>>())
    }
}

/// What is wrong with the lines of a block.
fn by_lines(block: &[u8]) -> Vec<Block> {
    let lines: Vec<&[u8]> = block.split_inclusive(|&byte| byte == b'\n').collect();
    let mut wrong = Vec::new();
    match lines.len() {
        4 => wrong.extend(missing(&lines)),
        5 if reads(&in_order(&lines)) => wrong.push(Block::Moved),
        6.. if reads(&lines[..5].concat()) => wrong.push(Block::Trailing),
        _ => {}
    }
    if lines.len() == 6 && is_doubled(&lines) {
        wrong.push(Block::Doubled);
    }
    wrong
}

/// The one line that a block lacks: with S's in its place it reads.
fn missing(lines: &[&[u8]]) -> Option<Block> {
    let of_s = lines_of(&Texts::s());
    let of_s: Vec<&[u8]> = of_s.split_inclusive(|&byte| byte == b'\n').collect();
    let reads = |&place: &usize| {
        let mut whole = lines.to_vec();
        whole.insert(place, of_s[place]);
        reads(&whole.concat())
    };
    (0..5).find(reads).map(Block::Missing)
}

/// The lines in the order of what they begin with.
fn in_order(lines: &[&[u8]]) -> Vec<u8> {
    let begins: [&[u8]; 5] = [b":26", b":57", b":59", b"INN", b":72"];
    let mut ordered = lines.to_vec();
    ordered.sort_by_key(|line| begins.iter().position(|begin| line.starts_with(begin)));
    ordered.concat()
}

/// Whether it reads without one of two equal lines.
fn is_doubled(lines: &[&[u8]]) -> bool {
    let reads = |place: usize| {
        let mut fewer = lines.to_vec();
        let line = fewer.remove(place);
        fewer.contains(&line) && reads(&fewer.concat())
    };
    (0..lines.len()).any(reads)
}

#[cfg(test)]
mod tests {
    use super::*;

    fn write(texts: &Texts, dates: Dates, size: usize) -> Vec<Lined> {
        let sheet = texts.sheet();
        let answer = Reference.write_lines(&sheet, dates, &mut vec![0; size]);
        written(&sheet, dates, size, answer)
    }

    #[test]
    fn lines_written() {
        let s = Texts::s();
        let dates = Dates::PROGRAM;
        let exact = write(&s, dates, 113);
        assert_eq!(exact[0], Lined::Written(113, Room::Exact));
        assert_eq!(exact[1], Lined::At([false, true, true]));
        let [status, account] = [Lined::Status, Lined::Account].map(|of| of(Way::Written, 0));
        assert_eq!(exact[2..], [status, account]);
        let of_02 = s.with(101, b"02");
        let on_its_date = write(&of_02, Dates::given(20231231), 200);
        assert_eq!(on_its_date.last(), Some(&Lined::OnItsDate(0)));
        assert_eq!(write(&of_02, dates, 113), [Lined::ADayOff(0)]);
        assert_eq!(write(&s, dates, 0), [Lined::TooShort(Room::None)]);
        assert_eq!(write(&s, dates, 112), [Lined::TooShort(Room::OneShort)]);
        assert_eq!(write(&s, dates, 111), []);
    }

    #[test]
    fn refusals_ahead_of_others() {
        let s = Texts::s();
        let ordinary = s.without(&[15, 101]);
        let late = Dates::given(20230924);
        let dates = Dates::PROGRAM;
        let ahead = |first, later| Lined::Ahead(first, later);
        let both = |first, later| vec![ahead(first, later), ahead(first, 7)];
        let malformed = s.with(14, &[b'0'; 26]);
        assert_eq!(write(&malformed, late, 0), both(1, 12));
        assert_eq!(write(&malformed, dates, 200), []);
        assert_eq!(write(&s.with(61, b"0"), late, 0), both(12, 8));
        assert_eq!(write(&ordinary, late, 0), both(12, 11));
        assert_eq!(write(&s, late, 112), [ahead(12, 7)]);
        assert_eq!(write(&ordinary.with(101, b"01"), dates, 0), both(8, 11));
        assert_eq!(write(&s.with(61, b"0"), dates, 0), [ahead(8, 7)]);
        assert_eq!(write(&ordinary, dates, 0), [ahead(11, 7)]);
        let of_class = Lined::ClassWritten(Class::O);
        assert_eq!(write(&ordinary, dates, 113), [of_class]);
    }

    fn block(block: &[u8]) -> Vec<Block> {
        assert!(!reads(block));
        wrong(block)
    }

    #[test]
    fn blocks_that_are_no_lines() {
        let s = Texts::s();
        let of = |field, text: &[u8]| block(&lines_of(&s.with(field, text)));
        let b = lines_of(&s);
        assert_eq!(block(b""), [Block::Empty]);
        assert_eq!(block(&b[..112]), [Block::Mark(7), Block::LastFeed]);
        assert_eq!(block(&cases::ended_by(&b, b"\r\n")), [Block::CrLf]);
        assert_eq!(
            block(&cases::trailing(&b, b"\0")),
            [Block::Mark(7), Block::Trailing]
        );
        assert_eq!(block(&b.repeat(2)), [Block::Long, Block::Trailing]);
        for (field, text, rule) in [
            (14, &b"00452598x"[..], 1),
            (15, b"4010281084537000000x", 2),
            (17, b"0310064300000001480x", 3),
            (17, b"03100810000000014800", 5),
            (22, b"1234", 7),
            (61, b"6730054025", 9),
            (101, b"09", 10),
            (103, b"002801001", 12),
        ] {
            assert_eq!(of(field, text), [Block::Rule(rule)]);
        }
        assert_eq!(of(22, b""), [Block::NoCode]);
        let ordinary = [Block::OfClass(Class::O)];
        assert_eq!(of(17, b"03254643000000014800"), ordinary);
        let class_b = s.with(14, b"044525000").with(17, b"40503810000004000000");
        let class_b = lines_of(&class_b);
        assert_eq!(block(&class_b), [Block::OfClass(Class::B)]);
    }

    #[test]
    fn lines_that_are_other_ones() {
        let b = lines_of(&Texts::s());
        let lines: Vec<&[u8]> = b.split_inclusive(|&byte| byte == b'\n').collect();
        for place in 0..5 {
            let mut fewer = lines.clone();
            let line = fewer.remove(place);
            assert_eq!(block(&fewer.concat()), [Block::Missing(place)]);
            let mut doubled = lines.clone();
            doubled.insert(place, line);
            assert!(block(&doubled.concat()).contains(&Block::Doubled));
            fewer.insert((place + 1) % 5, line);
            assert!(block(&fewer.concat()).contains(&Block::Moved));
        }
    }

    #[test]
    fn blocks_and_sheets_of_another_size() {
        let b = lines_of(&Texts::s());
        let read_into = |block: &[u8], size: usize| {
            let answer = Reference.read_lines(block, &mut vec![0; size]);
            read(block, answer)
        };
        assert_eq!(read_into(&b, 391), [Lined::SheetSize]);
        assert_eq!(read_into(b"", 391), [Lined::Ahead(7, 11)]);
        let [status, account] = [Lined::Status, Lined::Account].map(|of| of(Way::Read, 0));
        assert_eq!(read_into(&b, 390), [Lined::Read(113), status, account]);
    }
}

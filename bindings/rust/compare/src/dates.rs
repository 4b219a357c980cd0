//! What the dates of a check and of a completion are, and what became of them.

use std::fmt;

use cases::{day_after, day_before, is_day, Dates, LISTS, ORDER_DATE_MIN};
use kieselbrot::{Class, Completed, Refusal};

use crate::library::{Library, Reference};
use crate::pretest::{is_blank, Tested};
use crate::reached::text_of;

/// What dates reached.
#[derive(Clone, Copy, Debug, PartialEq, Eq, PartialOrd, Ord)]
pub enum Dated {
    /// A function refuses with 12 for this number alone.
    Refused(&'static str, Number, Wrong),
    /// A function takes a number at an end of what is taken.
    Taken(&'static str, Number, Edge),
    /// A function refuses with 1 or 7 at dates that 12 refuses.
    Before(&'static str, u8),
    /// A function refuses with 12 where it would go on to this number, or to 0, by the
    /// check at the program's dates or by the test ahead of completion.
    Ahead(&'static str, u8),
    /// A budget payment is accepted with this list in force.
    Accepted(List),
    /// A blank 101 is filled from this list.
    Filled(List),
    /// A blank 101, and no entry of this list keeps the rules.
    NoneOf(List),
    /// The status that has this entry of the record is checked on this side of it: allowed
    /// or named by rule 10.
    Status(Number, Side),
    /// Completion proposes 02.
    Proposed02,
    /// Rule 19 is named of a sheet with status 02.
    Rule19With02,
}

/// Whether 02, 32 and 33 are in force.
pub type List = [bool; 3];

/// The order's date, and the entries of the record.
#[derive(Clone, Copy, Debug, PartialEq, Eq, PartialOrd, Ord)]
pub enum Number {
    Order,
    First32,
    First33,
    Last02,
}

const NUMBERS: [Number; 4] = [
    Number::Order,
    Number::First32,
    Number::First33,
    Number::Last02,
];

/// Why a number is refused.
#[derive(Clone, Copy, Debug, PartialEq, Eq, PartialOrd, Ord)]
pub enum Wrong {
    YearBelow,
    YearAbove,
    Month,
    Day,
    /// The order's date is a day, and too early.
    Early,
}

/// The reasons that every number may have.
const NO_DAY: [Wrong; 4] = [Wrong::YearBelow, Wrong::YearAbove, Wrong::Month, Wrong::Day];

/// The ends of what is taken.
#[derive(Clone, Copy, Debug, PartialEq, Eq, PartialOrd, Ord)]
pub enum Edge {
    /// The earliest date of an order.
    Earliest,
    Year1900,
    Year2099,
    LeapDay,
}

/// Where the order's date stands to an entry of the record.
#[derive(Clone, Copy, Debug, PartialEq, Eq, PartialOrd, Ord)]
pub enum Side {
    AtTheEnd,
    DayWithin,
    DayOff,
}

const SIDES: [Side; 3] = [Side::AtTheEnd, Side::DayWithin, Side::DayOff];

/// All that must be reached.
pub fn all() -> impl Iterator<Item = Dated> {
    let numbers = |function| {
        NUMBERS
            .into_iter()
            .flat_map(move |one| of_number(function, one))
    };
    let lists = |list| {
        [
            Dated::Accepted(list),
            Dated::Filled(list),
            Dated::NoneOf(list),
        ]
    };
    let sides = |number| SIDES.map(|side| Dated::Status(number, side));
    let before = [("check", 1), ("complete", 1), ("complete", 7)];
    let ahead = [
        ("check", 0),
        ("check", 8),
        ("complete", 0),
        ("complete", 8),
        ("complete", 9),
        ("complete", 10),
    ];
    ["check", "complete"]
        .into_iter()
        .flat_map(numbers)
        .chain(before.map(|(function, number)| Dated::Before(function, number)))
        .chain(ahead.map(|(function, number)| Dated::Ahead(function, number)))
        .chain(LISTS.into_iter().flat_map(lists))
        .chain(NUMBERS.into_iter().skip(1).flat_map(sides))
        .chain([Dated::Proposed02, Dated::Rule19With02])
}

/// What must be reached of a number.
fn of_number(function: &'static str, number: Number) -> impl Iterator<Item = Dated> {
    let (early, edges) = match number {
        Number::Order => (
            Some(Wrong::Early),
            [Edge::Earliest, Edge::Year2099, Edge::LeapDay],
        ),
        _ => (None, [Edge::Year1900, Edge::Year2099, Edge::LeapDay]),
    };
    let wrong = NO_DAY.into_iter().chain(early);
    wrong
        .map(move |wrong| Dated::Refused(function, number, wrong))
        .chain(edges.map(|edge| Dated::Taken(function, number, edge)))
}

impl fmt::Display for Dated {
    fn fmt(&self, f: &mut fmt::Formatter<'_>) -> fmt::Result {
        match self {
            Self::Refused(function, number, wrong) => {
                write!(f, "{function} 12 for {number:?} {wrong:?}")
            }
            Self::Taken(function, number, edge) => write!(f, "{function}, {number:?} {edge:?}"),
            Self::Before(function, number) => write!(f, "{function} {number} before 12"),
            Self::Ahead(function, number) => write!(f, "{function} 12 before {number}"),
            Self::Accepted(list) => write!(f, "accepted with {}", shown(*list)),
            Self::Filled(list) => write!(f, "filled with {}", shown(*list)),
            Self::NoneOf(list) => write!(f, "none with {}", shown(*list)),
            Self::Status(number, side) => write!(f, "status of {number:?} {side:?}"),
            other => write!(f, "{other:?}"),
        }
    }
}

/// The three statuses that are in force.
pub fn shown(list: List) -> String {
    let of_three = ["02", "32", "33"].into_iter().zip(list);
    let names: Vec<&str> = of_three
        .filter_map(|(status, allowed)| allowed.then_some(status))
        .collect();
    match &names[..] {
        [] => "none of the three".to_owned(),
        names => names.join(", "),
    }
}

impl Number {
    const fn of(self, dates: Dates) -> u32 {
        match self {
            Self::Order => dates.order,
            Self::First32 => dates.first32,
            Self::First33 => dates.first33,
            Self::Last02 => dates.last02,
        }
    }

    fn wrong(self, dates: Dates) -> Option<Wrong> {
        let number = self.of(dates);
        let (year, month) = (number / 10_000, number / 100 % 100);
        match (year, month) {
            _ if is_day(number) => {
                (self == Self::Order && number < ORDER_DATE_MIN).then_some(Wrong::Early)
            }
            (0..1900, _) => Some(Wrong::YearBelow),
            (2100.., _) => Some(Wrong::YearAbove),
            (_, 1..=12) => Some(Wrong::Day),
            _ => Some(Wrong::Month),
        }
    }

    fn edge(self, dates: Dates) -> Option<Edge> {
        let number = self.of(dates);
        match (self, number / 10_000, number % 10_000) {
            (Self::Order, ..) if number == ORDER_DATE_MIN => Some(Edge::Earliest),
            (_, 1900, _) => Some(Edge::Year1900),
            (_, 2099, _) => Some(Edge::Year2099),
            (_, _, 229) => Some(Edge::LeapDay),
            _ => None,
        }
    }

    /// The entry of the record that is a status's.
    fn of_status(status: &[u8]) -> Option<Self> {
        match status {
            b"02" => Some(Self::Last02),
            b"32" => Some(Self::First32),
            b"33" => Some(Self::First33),
            _ => None,
        }
    }

    /// Where the order's date stands to this entry of dates that are not refused.
    fn side(self, dates: Dates) -> Option<Side> {
        let end = self.of(dates);
        let (within, off) = match self {
            Self::Last02 => (day_before(end), day_after(end)),
            _ => (day_after(end), day_before(end)),
        };
        match dates.order {
            order if order == end => Some(Side::AtTheEnd),
            order if order == within => Some(Side::DayWithin),
            order if order == off => Some(Side::DayOff),
            _ => None,
        }
    }
}

/// What the dates of a call reached, by the refusal if it is refused.
fn asked(function: &'static str, dates: Dates, refusal: Option<Refusal>) -> Vec<Dated> {
    let wrongs = NUMBERS.map(|number| (number, number.wrong(dates)));
    let mut wrong = wrongs.iter().filter_map(|&(number, wrong)| {
        let wrong = wrong?;
        Some(Dated::Refused(function, number, wrong))
    });
    match (refusal, wrong.next(), wrong.next()) {
        (Some(Refusal::Malformed | Refusal::Output), None, _) => vec![],
        (Some(refusal @ (Refusal::Malformed | Refusal::Output)), Some(_), _) => {
            vec![Dated::Before(function, refusal.number())]
        }
        (Some(Refusal::Undated), Some(alone), None) => vec![alone],
        (Some(Refusal::Undated), ..) => vec![],
        _ => NUMBERS
            .into_iter()
            .filter_map(|number| Some(Dated::Taken(function, number, number.edge(dates)?)))
            .collect(),
    }
}

/// What the dates of a check reached.
pub fn checked(sheet: &[u8], dates: Dates, answer: Result<Class, Refusal>) -> Vec<Dated> {
    let mut reached = asked("check", dates, answer.err());
    match answer {
        Ok(Class::A | Class::B) => {
            reached.push(Dated::Accepted(dates.allowed()));
            reached.extend(on_side(text_of(sheet, 101), dates, true));
        }
        Err(Refusal::Broken { rule: 10, .. }) => {
            reached.extend(on_side(text_of(sheet, 101), dates, false));
        }
        Err(Refusal::Broken { rule: 19, .. }) if text_of(sheet, 101) == b"02" => {
            reached.push(Dated::Rule19With02);
        }
        Err(Refusal::Undated) => {
            let elsewhere = Reference.check(sheet, Dates::PROGRAM);
            let number = elsewhere.err().map_or(0, |refusal| refusal.number());
            reached.push(Dated::Ahead("check", number));
        }
        _ => {}
    }
    reached
}

/// A status that has an entry, allowed at the end and within, or refused a day off.
fn on_side(status: &[u8], dates: Dates, allowed: bool) -> Option<Dated> {
    let number = Number::of_status(status)?;
    let side = number.side(dates)?;
    ((side != Side::DayOff) == allowed).then_some(Dated::Status(number, side))
}

/// What the dates of a completion reached, by what the test ahead of it answered and the
/// sheet afterwards.
pub fn completed(
    draft: &[u8],
    dates: Dates,
    tested: Tested,
    answer: Result<Completed, Refusal>,
    sheet: &[u8],
) -> Vec<Dated> {
    let mut reached = asked("complete", dates, answer.err());
    match answer {
        Ok(_) if is_blank(draft, 101) => {
            reached.push(Dated::Filled(dates.allowed()));
            let proposed = (text_of(sheet, 101) == b"02").then_some(Dated::Proposed02);
            reached.extend(proposed);
        }
        Err(Refusal::NoFilling { .. }) if is_blank(draft, 101) => {
            reached.push(Dated::NoneOf(dates.allowed()));
        }
        Err(Refusal::Undated) => {
            let number = match tested {
                Ok(None) => 0,
                Ok(Some(_)) => 10,
                Err(refusal) => refusal.number(),
            };
            reached.push(Dated::Ahead("complete", number));
        }
        _ => {}
    }
    reached
}

#[cfg(test)]
mod tests {
    use super::*;
    use cases::Texts;

    /// What a check of the second implementation reaches.
    fn check(texts: Texts, dates: Dates) -> Vec<Dated> {
        let sheet = texts.sheet();
        checked(&sheet, dates, Reference.check(&sheet, dates))
    }

    #[test]
    fn a_taken_date_reaches_its_list_and_sides() {
        let with_02 = Texts::s().with(101, b"02");
        let last = Dates::given(20231231);
        let list = [true, true, false];
        let at_the_end = Dated::Status(Number::Last02, Side::AtTheEnd);
        assert_eq!(check(with_02, last), [Dated::Accepted(list), at_the_end]);
        let off = Dated::Status(Number::Last02, Side::DayOff);
        assert_eq!(check(with_02, Dates::PROGRAM), [off]);
        assert_eq!(check(Texts::s(), last), [Dated::Accepted(list)]);
        let earliest = Dated::Taken("check", Number::Order, Edge::Earliest);
        let broken = Texts::s().with(14, b"");
        assert_eq!(check(broken, Dates::given(20230925)), [earliest]);
        let account = with_02.with(17, b"03222643000000014800");
        assert_eq!(check(account, last), [Dated::Rule19With02]);
    }

    #[test]
    fn a_refused_date_reaches_its_only_cause() {
        let early = Dated::Refused("check", Number::Order, Wrong::Early);
        let dates = Dates::given(20230924);
        assert_eq!(check(Texts::s(), dates), [early, Dated::Ahead("check", 0)]);
        let first33 = 20230229;
        let two = Dates { first33, ..dates };
        assert_eq!(check(Texts::s(), two), [Dated::Ahead("check", 0)]);
        let day = Dated::Refused("check", Number::First33, Wrong::Day);
        let one = Dates {
            first33,
            ..Dates::PROGRAM
        };
        let broken = Texts::s().with(14, b"");
        assert_eq!(check(broken, one), [day, Dated::Ahead("check", 8)]);
    }
}

//! Quick completions.

use cases::{message, Dates, Texts, BLANKS, LISTS};

use crate::dates::{found, hopeless};
use crate::example::{with_dates, Example, Kind};
use crate::reports::{order, INSTITUTION, L_5};

/// All: the eight lists, numbers of skipped statuses, a given 101, each rule that makes a
/// status skipped and each that does not, and what is refused otherwise.
pub fn all() -> Vec<Example> {
    [lists(), numbers(), given(), rules(), refused()].concat()
}

fn quick(name: impl AsRef<str>, texts: &Texts, dates: Dates) -> Example {
    quick_bytes(name, &order(texts), dates)
}

fn quick_bytes(name: impl AsRef<str>, messages: &[u8], dates: Dates) -> Example {
    let name = format!("quick: {}", name.as_ref());
    Example::new(Kind::QuickAt, name, &with_dates(dates, messages))
}

/// S with 22, 101 and 105 to 109 blank, and these texts.
fn open(changes: &[(u8, &[u8])]) -> Texts {
    let open = Texts::s().without(&BLANKS);
    let change = |texts: Texts, &(field, text): &(u8, &[u8])| texts.with(field, text);
    changes.iter().fold(open, change)
}

const OFFICE: (u8, &[u8]) = (107, b"10000000");
const UIN: (u8, &[u8]) = (22, b"11111111111111111111");

/// Completions with each list: found, found behind skipped statuses, and none, all skipped
/// or some.
fn lists() -> Vec<Example> {
    let late = found().with(OFFICE.0, OFFICE.1);
    let some = open(&[(106, b"000")]);
    let mut examples = Vec::new();
    for list in LISTS {
        let dates = Dates::given(20231015).allowing(list);
        let [s02, s32, s33] = list.map(u8::from);
        for (what, texts) in [
            ("found", found()),
            ("late", late),
            ("none", hopeless()),
            ("some of all", some),
        ] {
            let name = format!("02, 32, 33 allowed: {s02} {s32} {s33}, {what}");
            examples.push(quick(name, &texts, dates));
        }
    }
    examples
}

/// A name, and what an order has besides.
type Named<'a> = (&'a str, &'a [(u8, &'a [u8])]);

fn at_the_programs_dates(orders: &[Named<'_>]) -> Vec<Example> {
    let example = |&(name, changes): &Named<'_>| quick(name, &open(changes), Dates::PROGRAM);
    orders.iter().map(example).collect()
}

/// Numbers of skipped statuses, with a sheet and with 10.
fn numbers() -> Vec<Example> {
    at_the_programs_dates(&[
        ("nothing skipped", &[]),
        ("a code at an institution", &[(17, INSTITUTION), UIN]),
        ("an office", &[OFFICE]),
        ("some of all with an office", &[OFFICE, (106, b"000")]),
        ("108 given", &[(108, b"-")]),
        ("109 given", &[(109, b"1")]),
        (
            "106, 108 and 109 given",
            &[(106, b"00"), (108, b"0"), (109, b"0")],
        ),
    ])
}

/// A given 101, skipped and not.
fn given() -> Vec<Example> {
    let mut examples = at_the_programs_dates(&[
        ("08 given", &[(101, b"08")]),
        ("99 given", &[(101, b"99")]),
        ("17 given", &[(101, b"17")]),
        (
            "01 and nothing else blank",
            &[(101, b"01"), (106, b"0"), (108, b"0"), (109, b"0")],
        ),
    ]);
    for date in [20231231, 20240101] {
        let name = format!("02 given at {date}");
        examples.push(quick(name, &open(&[(101, b"02")]), Dates::given(date)));
    }
    examples
}

/// Each rule that makes a status skipped, then those that read 106, 108 or 109.
fn rules() -> Vec<Example> {
    at_the_programs_dates(&[
        ("rule 5", &[(17, b"03100810000000014800")]),
        ("rule 7", &[(22, b"1234")]),
        ("rule 8", &[(60, b"7722222222")]),
        ("rule 9", &[(61, b"7722222222")]),
        ("rule 9, 61 blank", &[(61, b"")]),
        ("rule 11", &[(102, b"000000000")]),
        ("rule 12", &[(103, b"0")]),
        ("rule 13", &[(104, b"00")]),
        ("rule 14", &[(105, b"00000000")]),
        ("rule 16", &[(107, b"00")]),
        ("rule 19", &[(101, b"01"), (17, b"03222643000000014800")]),
        ("rule 20", &[(101, b"31"), UIN]),
        ("rule 21", &[(101, b"33")]),
        ("rule 22", &[(101, b"08"), (17, INSTITUTION)]),
        ("rule 23", &[(101, b"30")]),
        ("rule 24", &[(101, b"13"), (60, b"0")]),
        ("rule 27", &[(101, b"08"), (102, b"0")]),
        ("rule 28", &[(104, b"0")]),
        ("rule 30", &[(101, b"06")]),
        ("not rule 15", &[(101, b"01"), (106, b"000")]),
        ("not rule 25", &[(101, b"24"), (108, b"1")]),
        ("not rule 26", &[(101, b"33"), UIN, (108, b"1")]),
        ("not rule 29", &[(101, b"01"), (106, b"00")]),
        ("not rule 31", &[(101, b"01"), (109, b"00")]),
        (
            "not rule 35",
            &[(101, b"06"), OFFICE, (108, b"14;12345678900")],
        ),
    ])
}

/// What is refused otherwise, without a number; then what is not posted.
fn refused() -> Vec<Example> {
    let dates = Dates::PROGRAM;
    let status = message(101, 1, b"17");
    let behind = [&order(&found())[..], &L_5, &status].concat();
    vec![
        quick("a fresh draft", &Texts::BLANK, dates),
        quick("a fresh draft at 0", &Texts::BLANK, Dates::given(0)),
        quick(
            "a hopeless order at 20230924",
            &hopeless(),
            Dates::given(20230924),
        ),
        quick("an ordinary order", &open(&[(15, b"")]), dates),
        quick_bytes("a status behind a 2", &behind, dates),
    ]
}

#[cfg(test)]
mod tests {
    use super::*;
    use crate::example::has_line;

    #[track_caller]
    fn is(name: &str, line: &str) {
        has_line(&all(), &format!("quick: {name}"), line);
    }

    /// Slots 3, 6 and 10 to 14 are filled.
    const FILLED: &str = "31816 7";

    #[test]
    fn the_list_in_force() {
        for list in LISTS {
            let [s02, s32, s33] = list.map(u32::from);
            let name = format!("02, 32, 33 allowed: {s02} {s32} {s33}");
            let found = match s02 {
                1 => format!("ok 49 {FILLED} 02 1"),
                _ => format!("ok 97 {FILLED} 04 1"),
            };
            is(&format!("{name}, found"), &found);
            // 01 to 08, 13 and 15, with 02 if it is allowed; slot 12 is given.
            let ahead = 9 + s02;
            let late = format!("ok {} 27720 6 16 {ahead}", 48 * ahead + 1);
            is(&format!("{name}, late"), &late);
            let all = 20 + s02 + s32 + s33;
            is(&format!("{name}, none"), &format!("10 {} {all}", 48 * all));
            // The customs group, 31 and 33.
            let some = 7 + s32 + s33;
            is(
                &format!("{name}, some of all"),
                &format!("10 {} {some}", 4 * all),
            );
        }
    }

    #[test]
    fn numbers_of_skipped_statuses() {
        is("nothing skipped", &format!("ok 1 {FILLED} 01 0"));
        is("some of all with an office", "10 88 17");
        is("02 given at 20231231", "ok 1 31752 6 02 0");
        is("02 given at 20240101", "10 48 1");
        for rule in [
            "5",
            "7",
            "8",
            "9",
            "9, 61 blank",
            "11",
            "12",
            "13",
            "14",
            "16",
            "28",
        ] {
            is(&format!("rule {rule}"), "10 1056 22");
        }
        for rule in [19, 20, 21, 22, 23, 24, 27, 30] {
            is(&format!("rule {rule}"), "10 48 1");
        }
        for (rule, count) in [(15, 4), (25, 24), (26, 24), (29, 4), (31, 24), (35, 24)] {
            is(&format!("not rule {rule}"), &format!("10 {count} 0"));
        }
    }

    #[test]
    fn other_refusals_have_no_number() {
        is("a fresh draft", "8 14 1");
        is("a fresh draft at 0", "12");
        is("a hopeless order at 20230924", "12");
        is("an ordinary order", "9");
        is("a status behind a 2", &format!("ok 97 {FILLED} 04 1"));
    }
}

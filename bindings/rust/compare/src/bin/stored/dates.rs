//! Checks and completions at other dates than the program's.

use cases::{day_after, day_before, message, Dates, Texts, BLANKS, LISTS, NO_DAYS};

use crate::example::{with_dates, Example, Kind};
use crate::reports::{order, INSTITUTION, L_5};

/// All: R-7's sentences, the ends of the record, the eight lists, what 12 refuses, and
/// what is tested before and after it.
pub fn all() -> Vec<Example> {
    [
        statuses(),
        years(),
        rules_of_02(),
        ends(),
        lists(),
        no_days(),
        test_order(),
        completions(),
    ]
    .concat()
}

fn check(name: impl AsRef<str>, texts: &Texts, dates: Dates) -> Example {
    check_bytes(name, &texts.sheet(), dates)
}

fn check_bytes(name: impl AsRef<str>, sheet: &[u8], dates: Dates) -> Example {
    let name = format!("check: {}", name.as_ref());
    Example::new(Kind::CheckAt, name, &with_dates(dates, sheet))
}

fn complete(name: impl AsRef<str>, texts: &Texts, dates: Dates) -> Example {
    complete_bytes(name, &order(texts), dates)
}

fn complete_bytes(name: impl AsRef<str>, messages: &[u8], dates: Dates) -> Example {
    let name = format!("complete: {}", name.as_ref());
    Example::new(Kind::CompleteAt, name, &with_dates(dates, messages))
}

/// S with status 02, 32 or 33, and what the status wants.
fn of_status(status: &str) -> Texts {
    let texts = Texts::s().with(101, status.as_bytes());
    match status {
        "32" => texts.with(107, b"10000000"),
        "33" => texts.with(22, &[b'1'; 20]),
        _ => texts,
    }
}

const STATUSES: [&str; 3] = ["02", "32", "33"];

/// The three statuses at the given record's dates, a day before and a day after.
fn statuses() -> Vec<Example> {
    let ends = [20231231, 20231001, 20240101];
    let mut examples = Vec::new();
    for (status, end) in STATUSES.into_iter().zip(ends) {
        for date in [day_before(end), end, day_after(end)] {
            let name = format!("status {status} at {date}");
            examples.push(check(name, &of_status(status), Dates::given(date)));
        }
    }
    let later = Dates::PROGRAM.with_entry(2, 20240101);
    examples.push(check(
        "status 02 at a later last date",
        &of_status("02"),
        later,
    ));
    examples
}

/// S at the earliest and the last date of an order and beyond them; with records at the
/// ends of the years, and beyond them.
fn years() -> Vec<Example> {
    let s = Texts::s();
    let mut examples: Vec<Example> = [20230924, 20230925, 20240229, 20991231, 21000101]
        .map(|date| check(format!("S at {date}"), &s, Dates::given(date)))
        .to_vec();
    let record = |entries: [u32; 3]| {
        let dates = Dates::PROGRAM.with_entries(entries);
        check(format!("S with {entries:?}"), &s, dates)
    };
    examples.extend(
        [
            [19000101, 20991231, 20000229],
            [20991231, 19000101, 19000101],
            [18991231, 20991231, 20000229],
            [19000101, 21000101, 20000229],
            [19000101, 20991231, 19000229],
        ]
        .map(record),
    );
    examples
}

/// What the rules say of status 02 at a date that allows it.
fn rules_of_02() -> Vec<Example> {
    let dates = Dates::given(20231231);
    let changed = |name: &str, field, text: &[u8]| {
        let name = format!("status 02, {name}");
        check(name, &of_status("02").with(field, text), dates)
    };
    let class_b = of_status("02")
        .with(14, b"044525000")
        .with(15, b"")
        .with(17, b"40503810000004000000");
    vec![
        changed("17 begins 03222", 17, b"03222643000000014800"),
        changed("102 0", 102, b"0"),
        changed("60 0", 60, b"0"),
        changed("60 a foreign code", 60, b"12345"),
        changed("106 00", 106, b"00"),
        changed("107 of 8 digits", 107, b"10000000"),
        changed("108 a text", 108, b"5"),
        changed("109 00", 109, b"00"),
        check("status 02 in class B", &class_b, dates),
    ]
}

/// Each status at its end in a record of other dates, and a day off.
fn ends() -> Vec<Example> {
    let order = 20240229;
    let mut examples = Vec::new();
    for list in [[true; 3], [false; 3]] {
        let dates = Dates::given(order).allowing(list);
        for status in STATUSES {
            let name = format!("status {status} at {order} with {:?}", dates.entries());
            examples.push(check(name, &of_status(status), dates));
        }
    }
    examples
}

/// An order that status 02 completes, or 04 where 02 is not allowed.
pub fn found() -> Texts {
    let open = Texts::s().without(&BLANKS);
    open.with(60, b"0").with(102, b"0")
}

/// An order that no status completes.
pub fn hopeless() -> Texts {
    Texts::s().without(&BLANKS).with(17, INSTITUTION)
}

/// Completions with each list.
fn lists() -> Vec<Example> {
    let mut examples = Vec::new();
    for list in LISTS {
        let dates = Dates::given(20231015).allowing(list);
        let [s02, s32, s33] = list.map(u8::from);
        let name = format!("02, 32, 33 allowed: {s02} {s32} {s33}");
        examples.push(complete(format!("{name}, found"), &found(), dates));
        examples.push(complete(format!("{name}, none"), &hopeless(), dates));
    }
    examples
}

/// Numbers that are no date, as the order's date and as each entry of the record.
fn no_days() -> Vec<Example> {
    let mut examples = Vec::new();
    for number in NO_DAYS {
        let name = format!("{number} as the order's date");
        examples.push(complete(name, &Texts::BLANK, Dates::given(number)));
        for entry in 0..3 {
            let name = format!("{number} as entry {entry}");
            let dates = Dates::PROGRAM.with_entry(entry, number);
            examples.push(complete(name, &Texts::BLANK, dates));
        }
    }
    let dates = Dates::PROGRAM.with_entry(1, 20230229);
    examples.push(check("S with 20230229 in the record", &Texts::s(), dates));
    examples
}

/// What stands before 12 and behind it.
fn test_order() -> Vec<Example> {
    let (early, never) = (Dates::given(20230924), Dates::given(0));
    let ordinary = Texts::s().without(&[15, 101]);
    vec![
        check_bytes("a malformed sheet at 0", &[0; 389], never),
        check("a class O sheet at 20230924", &ordinary, early),
        check(
            "a class O sheet at 20230925",
            &ordinary,
            Dates::given(20230925),
        ),
        check("a blank sheet at 20230924", &Texts::BLANK, early),
        complete("a fresh draft at 20240101", &Texts::BLANK, Dates::PROGRAM),
        complete("an ordinary order at 20230924", &ordinary, early),
        complete("an ordinary order at 20240101", &ordinary, Dates::PROGRAM),
        complete("a hopeless order at 20230924", &hopeless(), early),
    ]
}

/// Completions at the given record's dates, with 101 blank and with 02 given; then what
/// is not posted.
fn completions() -> Vec<Example> {
    let given = found().with(101, b"02");
    let mut examples = Vec::new();
    for date in [20230925, 20230930, 20231001, 20231231, 20240101] {
        let dates = Dates::given(date);
        examples.push(complete(format!("found at {date}"), &found(), dates));
        examples.push(complete(format!("none at {date}"), &hopeless(), dates));
        examples.push(complete(format!("02 given at {date}"), &given, dates));
    }
    let (dates, given) = (Dates::given(20231015), order(&given));
    let status = message(101, 2, b"08");
    let clash = message(101, 1, b"08");
    examples.extend([
        complete_bytes(
            "a clash is not stored",
            &[&given[..], &clash].concat(),
            dates,
        ),
        complete_bytes(
            "a status behind it",
            &[&given[..], &clash, &status].concat(),
            dates,
        ),
        complete_bytes(
            "a status behind a 2",
            &[&given[..], &L_5, &status].concat(),
            dates,
        ),
    ]);
    examples
}

#[cfg(test)]
mod tests {
    use super::*;
    use crate::example::has_line;

    #[track_caller]
    fn is(name: &str, line: &str) {
        has_line(&all(), name, line);
    }

    #[test]
    fn statuses_by_date() {
        for (status, date, line) in [
            ("02", 20231230, "ok A"),
            ("02", 20231231, "ok A"),
            ("02", 20240101, "8 101 10"),
            ("32", 20230930, "8 101 10"),
            ("32", 20231001, "ok A"),
            ("32", 20231002, "ok A"),
            ("33", 20231231, "8 101 10"),
            ("33", 20240101, "ok A"),
            ("33", 20240102, "ok A"),
        ] {
            is(&format!("check: status {status} at {date}"), line);
        }
        is("check: status 02 at a later last date", "ok A");
        for status in STATUSES {
            let at = format!("check: status {status} at 20240229 with ");
            is(&format!("{at}[20240229, 20240229, 20240229]"), "ok A");
            is(&format!("{at}[20240301, 20240301, 20240228]"), "8 101 10");
        }
    }

    #[test]
    fn dates_that_are_taken_and_refused() {
        for (date, line) in [
            (20230924, "12"),
            (20230925, "ok A"),
            (20240229, "ok A"),
            (20991231, "ok A"),
            (21000101, "12"),
        ] {
            is(&format!("check: S at {date}"), line);
        }
        is("check: S with [19000101, 20991231, 20000229]", "ok A");
        is("check: S with [20991231, 19000101, 19000101]", "ok A");
        is("check: S with [18991231, 20991231, 20000229]", "12");
        is("check: S with [19000101, 21000101, 20000229]", "12");
        is("check: S with [19000101, 20991231, 19000229]", "12");
        is("check: S with 20230229 in the record", "12");
        for example in no_days() {
            assert_eq!(example.output(), b"12\n", "{}", example.name);
        }
    }

    #[test]
    fn status_02_joins_rule_19_and_no_other() {
        is("check: status 02, 17 begins 03222", "8 17 19");
        is("check: status 02, 102 0", "8 102 27");
        is("check: status 02, 60 0", "ok A");
        is("check: status 02, 60 a foreign code", "ok A");
        is("check: status 02, 106 00", "8 106 29");
        is("check: status 02, 107 of 8 digits", "8 107 30");
        is("check: status 02, 108 a text", "ok A");
        is("check: status 02, 109 00", "8 109 31");
        is("check: status 02 in class B", "ok B");
    }

    #[test]
    fn twelve_is_tested_after_1_and_before_8() {
        is("check: a malformed sheet at 0", "1");
        is("check: a class O sheet at 20230924", "12");
        is("check: a class O sheet at 20230925", "ok O");
        is("check: a blank sheet at 20230924", "12");
        is("complete: 0 as the order's date", "12");
        is("complete: a fresh draft at 20240101", "8 14 1");
        is("complete: an ordinary order at 20230924", "12");
        is("complete: an ordinary order at 20240101", "9");
        is("complete: a hopeless order at 20230924", "12");
    }

    /// Slots 3, 6 and 10 to 14 are filled.
    const FILLED: &str = "31816 7";

    #[test]
    fn completion_goes_through_the_list_in_force() {
        for list in LISTS {
            let [s02, s32, s33] = list.map(u8::from);
            let name = format!("complete: 02, 32, 33 allowed: {s02} {s32} {s33}");
            let found = match s02 {
                1 => format!("ok 49 {FILLED} 02"),
                _ => format!("ok 97 {FILLED} 04"),
            };
            is(&format!("{name}, found"), &found);
            let all = 48 * (20 + u32::from(s02 + s32 + s33));
            is(&format!("{name}, none"), &format!("10 {all}"));
        }
        for (date, status, count, all) in [
            (20230925, "02", 49, 1008),
            (20230930, "02", 49, 1008),
            (20231001, "02", 49, 1056),
            (20231231, "02", 49, 1056),
            (20240101, "04", 97, 1056),
        ] {
            let found = format!("ok {count} {FILLED} {status}");
            is(&format!("complete: found at {date}"), &found);
            is(&format!("complete: none at {date}"), &format!("10 {all}"));
        }
    }

    #[test]
    fn a_given_status_stays() {
        // Slots 3 and 10 to 14.
        let first = "ok 1 31752 6 02";
        is("complete: 02 given at 20231231", first);
        is("complete: 02 given at 20240101", "10 48");
        is("complete: a clash is not stored", first);
        is("complete: a status behind it", "ok 1 31752 6 08");
        is("complete: a status behind a 2", first);
    }
}

//! R-7's table: differences from the paper's sheet S, at dates and records.

use cases::{Texts, ALL_STATUSES, BLANKS};
use kieselbrot::{check, complete, Class, Date, Record, Refusal, Terms};
use kieselbrot::{ORDER_DATE_MIN, SHEET_SIZE};

const INSTITUTION: &[u8] = b"03212643000000014800";

/// A field and its text.
type Change = (u8, &'static [u8]);

/// S with these texts.
fn order(changes: &[Change]) -> Texts {
    let change = |texts: Texts, &(field, text): &Change| texts.with(field, text);
    changes.iter().fold(Texts::s(), change)
}

const fn record(first32: u32, first33: u32, last02: u32) -> Record {
    Record {
        first32: Date(first32),
        first33: Date(first33),
        last02: Date(last02),
    }
}

/// A record at whose dates all 23 statuses are allowed, and one that allows none of the
/// three that have a date.
const ALL: Record = record(20230925, 20230925, 20991231);
const NONE: Record = record(20991231, 20991231, 20230924);

fn check_at(changes: &[Change], date: u32, record: Record) -> Result<Class, Refusal> {
    check(&order(changes).sheet(), Terms::new(Date(date), record))
}

const fn broken(field: u8, rule: u8) -> Result<Class, Refusal> {
    Err(Refusal::Broken { field, rule })
}

const UNDATED: Result<Class, Refusal> = Err(Refusal::Undated);

#[test]
fn checks_with_the_given_record() {
    let s: &[Change] = &[];
    let of_02: &[Change] = &[(101, b"02")];
    let of_33: &[Change] = &[(101, b"33"), (22, b"11111111111111111111")];
    let of_32: &[Change] = &[(101, b"32"), (107, b"10000000")];
    let account: &[Change] = &[(101, b"02"), (17, b"03222643000000014800")];
    let no_kpp: &[Change] = &[(101, b"02"), (102, b"0")];
    let ordinary: &[Change] = &[(15, b""), (101, b"")];
    let table: [(&[Change], u32, Result<Class, Refusal>); 14] = [
        (of_02, 20231231, Ok(Class::A)),
        (of_02, 20240101, broken(101, 10)),
        (account, 20231231, broken(17, 19)),
        (no_kpp, 20231231, broken(102, 27)),
        (of_33, 20231231, broken(101, 10)),
        (of_33, 20240101, Ok(Class::A)),
        (of_32, 20230930, broken(101, 10)),
        (of_32, 20231001, Ok(Class::A)),
        (s, 20230924, UNDATED),
        (s, 20230925, Ok(Class::A)),
        (s, 20991231, Ok(Class::A)),
        (s, 21000101, UNDATED),
        (ordinary, 20230924, UNDATED),
        (ordinary, 20230925, Ok(Class::O)),
    ];
    for (changes, date, expected) in table {
        let answer = check_at(changes, date, Record::GIVEN);
        assert_eq!(answer, expected, "{changes:?} at {date}");
    }
    assert_eq!(ORDER_DATE_MIN, Date(20230925));
    assert_eq!(Record::GIVEN, record(20231001, 20240101, 20231231));
}

#[test]
fn checks_with_other_records() {
    let last02 = Date(20240101);
    let later = Record {
        last02,
        ..Record::GIVEN
    };
    assert_eq!(check_at(&[(101, b"02")], 20240101, later), Ok(Class::A));
    let ends = record(19000101, 20991231, 20000229);
    assert_eq!(check_at(&[], 20240101, ends), Ok(Class::A));
    for no_date in [
        record(20230229, 20240101, 20231231),
        record(20231001, 20230229, 20231231),
        record(20231001, 20240101, 20230229),
    ] {
        assert_eq!(check_at(&[], 20240101, no_date), UNDATED, "{no_date:?}");
    }
}

#[test]
fn a_malformed_sheet_is_refused_before_its_date() {
    let sheet = [0; SHEET_SIZE - 1];
    let answer = check(&sheet, Terms::given(Date(0)));
    assert_eq!(answer, Err(Refusal::Malformed));
}

/// What completing answers: status and count.
fn completed(texts: &Texts, date: u32, record: Record) -> Result<(Vec<u8>, usize), Refusal> {
    let draft = texts.draft(|text| u32::from(!text.is_empty()));
    let mut sheet = [0xEE; SHEET_SIZE];
    let answer = complete(&draft, &mut sheet, Terms::new(Date(date), record));
    let slot = &sheet[26 * cases::slot_of(101)..];
    if answer.is_err() {
        assert_eq!(sheet, [0xEE; SHEET_SIZE]);
    }
    answer.map(|completed| (slot[1..3].to_vec(), completed.count))
}

#[test]
fn a_fresh_draft() {
    let fresh = |date| completed(&Texts::BLANK, date, Record::GIVEN);
    assert_eq!(fresh(0), Err(Refusal::Undated));
    let (field, rule) = (14, 1);
    assert_eq!(fresh(20240101), Err(Refusal::Broken { field, rule }));
    let draft = Texts::BLANK.draft(|_| 0);
    let answer = complete(&draft, &mut [], Terms::given(Date(0)));
    assert_eq!(answer, Err(Refusal::Output));
}

#[test]
fn completion_goes_through_the_list_in_force() {
    let open = order(&[(60, b"0"), (102, b"0")]).without(&BLANKS);
    let found = completed(&open, 20231015, Record::GIVEN);
    assert_eq!(found, Ok((b"02".to_vec(), 49)));
    let found = completed(&open, 20240101, Record::GIVEN);
    assert_eq!(found, Ok((b"04".to_vec(), 97)));
    let hopeless = order(&[(17, INSTITUTION)]).without(&BLANKS);
    for (date, record, count) in [
        (20240101, Record::GIVEN, 1056),
        (20230930, Record::GIVEN, 1008),
        (20240101, ALL, 1104),
        (20240101, NONE, 960),
    ] {
        let none = Err(Refusal::NoFilling { count });
        assert_eq!(completed(&hopeless, date, record), none);
    }
}

/// Rule 10 takes a status exactly when it is in the list in force, for every text of two
/// digits.
#[test]
fn rule_10_by_date() {
    for number in 0..100 {
        let status = format!("{number:02}");
        let sheet = Texts::s().with(101, status.as_bytes()).sheet();
        let taken = |record| check(&sheet, Terms::new(Date(20240101), record)) != broken(101, 10);
        let listed = ALL_STATUSES.contains(&status.as_str());
        assert_eq!(taken(ALL), listed, "{status}");
        let dated = matches!(status.as_str(), "02" | "32" | "33");
        assert_eq!(taken(NONE), listed && !dated, "{status}");
    }
}

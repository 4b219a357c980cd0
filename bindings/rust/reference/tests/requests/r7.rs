//! "The order's date chooses the rules."

use cases::{filled_set, Random, Texts, BASES, STATUSES};
use reference::{check, complete, entry, pretest, report, statuses};
use reference::{Class, Completed, Date, Record, Refusal};

use crate::fixture::{broken, class_b, class_o, of_status, open, s};
use crate::fixture::{Change, Order, ENFORCEMENT, UIN};
use crate::layout::draft_of;

/// The 23 statuses that some date allows.
fn all_statuses() -> Vec<&'static str> {
    let mut all = STATUSES.to_vec();
    all.insert(1, "02");
    all
}

/// A record of these three dates.
const fn record(first32: u32, first33: u32, last02: u32) -> Record {
    Record {
        first32: Date(first32),
        first33: Date(first33),
        last02: Date(last02),
    }
}

/// The list in force as text.
fn listed(date: u32, record: Record) -> Vec<String> {
    let text = |status: &[u8]| String::from_utf8_lossy(status).into_owned();
    statuses(Date(date), record).map(text).collect()
}

/// "Exactly when the date allows it", from the numbers.
fn allowed(status: &str, date: u32, record: Record) -> bool {
    match status {
        "32" => record.first32.0 <= date,
        "33" => record.first33.0 <= date,
        "02" => date <= record.last02.0,
        _ => true,
    }
}

fn check_at(order: &Texts, date: u32, record: Record) -> Result<Class, Refusal> {
    check(&order.sheet(), Date(date), record)
}

fn complete_at(
    order: &Texts,
    sheet: &mut [u8],
    date: u32,
    record: Record,
) -> Result<Completed, Refusal> {
    complete(&draft_of(order, |_| 1), sheet, Date(date), record)
}

/// Entries of "Completion"'s lists, that of 101 at the date.
#[test]
fn entries_of_the_lists() {
    let asked = |field, place, date| entry(field, place, Date(date), Record::GIVEN);
    for (field, place, date, expected) in [
        (101, 0, 20_240_101, Some(&b"01"[..])),
        (101, 1, 20_240_101, Some(b"03")),
        (101, 21, 20_240_101, Some(b"33")),
        (101, 22, 20_240_101, None),
        (101, 1, 20_231_231, Some(b"02")),
        (101, 21, 20_231_231, Some(b"32")),
        (101, 21, 20_230_930, None),
        (106, 2, 20_240_101, Some(b"\xD3\xC2")),
        (106, 11, 20_240_101, Some(b"\xCA\xDD")),
        (106, 12, 20_240_101, None),
        (108, 1, 20_240_101, Some(b"00")),
        (109, 2, 20_240_101, None),
        (22, 0, 20_240_101, Some(b"0")),
        (22, 1, 20_240_101, None),
        (61, 0, 20_240_101, None),
    ] {
        assert_eq!(asked(field, place, date), Ok(expected), "{field} {place}");
    }
    assert_eq!(asked(16, 0, 20_240_101), Err(Refusal::UnknownField));
    assert_eq!(asked(16, 0, 0), Err(Refusal::Undated));
    assert_eq!(asked(101, 0, 20_230_924), Err(Refusal::Undated));
}

/// Some statuses at some dates with the given record.
#[test]
fn the_three_dates_given() {
    for (status, date, taken) in [
        ("32", 20_230_930, false),
        ("32", 20_231_001, true),
        ("33", 20_231_231, false),
        ("33", 20_240_101, true),
        ("02", 20_230_925, true),
        ("02", 20_231_231, true),
        ("02", 20_240_101, false),
        ("01", 20_230_925, true),
        ("01", 20_991_231, true),
    ] {
        let expected = if taken {
            Ok(Class::A)
        } else {
            Err(broken(101, 10))
        };
        let order = of_status(status);
        let answer = check_at(&order, date, Record::GIVEN);
        assert_eq!(answer, expected, "{status} {date}");
        let in_list = listed(date, Record::GIVEN).iter().any(|one| one == status);
        assert_eq!(in_list, taken, "{status} {date}");
    }
    assert_eq!(Record::GIVEN, record(20_231_001, 20_240_101, 20_231_231));
}

/// "A status is in rule 10's list … in ascending order, exactly when the date
/// allows it": all eight ways, and the days about each of the dates.
#[test]
fn the_list_in_force() {
    let mut lengths = [0; 24];
    let days = [
        20_230_925, 20_230_930, 20_231_001, 20_231_231, 20_240_101, 20_991_231,
    ];
    let entries = [
        19_000_101, 20_230_924, 20_230_930, 20_231_001, 20_240_101, 20_991_231,
    ];
    for date in days {
        for first32 in entries {
            for first33 in entries {
                for last02 in entries {
                    let record = record(first32, first33, last02);
                    let list = listed(date, record);
                    assert!(list.is_sorted());
                    let kept = |status: &&str| allowed(status, date, record);
                    let expected: Vec<_> = all_statuses().into_iter().filter(kept).collect();
                    assert_eq!(list, expected, "{date} {record:?}");
                    lengths[list.len()] += 1;
                }
            }
        }
    }
    assert!(lengths[..20].iter().all(|&times| times == 0));
    assert!(lengths[20..].iter().all(|&times| times > 0));
    assert_eq!(listed(20_240_101, Record::GIVEN), STATUSES);
}

/// Every status, in the check, for all eight ways of the three dates.
#[test]
fn rule_10_has_the_list() {
    let date = 20_231_115;
    let entries = [19_000_101, 20_231_114, date, 20_231_116, 20_991_231];
    for first32 in entries {
        for first33 in entries {
            for last02 in entries {
                let record = record(first32, first33, last02);
                for status in all_statuses() {
                    let expected = if allowed(status, date, record) {
                        Ok(Class::A)
                    } else {
                        Err(broken(101, 10))
                    };
                    let answer = check_at(&of_status(status), date, record);
                    assert_eq!(answer, expected, "{status} {record:?}");
                }
            }
        }
    }
}

/// No date makes a status of what is none.
#[test]
fn other_texts_are_never_statuses() {
    let always = record(19_000_101, 19_000_101, 20_991_231);
    for number in 0..100 {
        let status = format!("{number:02}");
        let answer = check_at(&of_status(&status), 20_240_101, always);
        let expected = if all_statuses().contains(&&status[..]) {
            Ok(Class::A)
        } else {
            Err(broken(101, 10))
        };
        assert_eq!(answer, expected, "{status}");
    }
    for status in ["2", "002", "0", "32 ", "3", "O2"] {
        let answer = check_at(&s(&[(101, status)]), 20_240_101, always);
        assert_eq!(answer, Err(broken(101, 10)), "{status}");
    }
}

/// A day of 2023 on which 02 and 32 are statuses, 33 isn't.
const LATE_2023: u32 = 20_231_115;

/// "Status 02 joins rule 19", and no other rule's list.
#[test]
fn status_02_joins_rule_19() {
    let at = |order: &Texts| check_at(order, LATE_2023, Record::GIVEN);
    let order = |changes: &[Change<'_>]| s(changes).with(101, b"02");
    assert_eq!(at(&order(&[])), Ok(Class::A));
    for account in ["03222643000000014800", "03244643000000014800"] {
        assert_eq!(at(&order(&[(17, account)])), Err(broken(17, 19)));
    }
    // Rule 19 comes ahead of rule 22.
    let enforcement = order(&[(17, ENFORCEMENT)]);
    assert_eq!(at(&enforcement), Err(broken(17, 19)));
    // "Class A".
    assert_eq!(at(&class_b().with(101, b"02")), Ok(Class::B));
    // Rules 21 and 26 want no UIN, rule 23 no payer, rule 24 neither, rule 25 no
    // person.
    assert_eq!(at(&order(&[(22, UIN), (108, "1")])), Ok(Class::A));
    for (payer, kpp) in [("0", "0"), ("12345", "770301001"), ("781023456779", "0")] {
        assert_eq!(at(&order(&[(60, payer), (102, kpp)])), Ok(Class::A));
    }
    // Rule 27: "unless status 01".
    assert_eq!(at(&order(&[(102, "0")])), Err(broken(102, 27)));
    // Outside the customs group.
    let pair = order(&[]).with(106, BASES[2]).with(108, b"1");
    assert_eq!(at(&pair), Err(broken(106, 29)));
    let office = order(&[(107, "10000000")]);
    assert_eq!(at(&office), Err(broken(107, 30)));
    assert_eq!(at(&order(&[(109, "01.01.2024")])), Err(broken(109, 31)));
}

/// "The largest number of fillings follows the list."
#[test]
fn the_largest_number_of_fillings() {
    let hopeless = open(&[(17, ENFORCEMENT)]);
    for (date, record, count) in [
        (20_230_925, Record::GIVEN, 1008),
        (20_230_930, Record::GIVEN, 1008),
        (20_231_001, Record::GIVEN, 1056),
        (20_231_231, Record::GIVEN, 1056),
        (20_240_101, Record::GIVEN, 1056),
        (20_240_101, record(20_991_231, 20_991_231, 19_000_101), 960),
        (20_240_101, record(20_991_231, 20_240_101, 20_231_231), 1008),
        (20_240_101, record(20_240_101, 20_240_101, 20_240_101), 1104),
    ] {
        let mut sheet = [0xFF; 390];
        let answer = complete_at(&hopeless, &mut sheet, date, record);
        assert_eq!(answer, Err(Refusal::NoFilling { count }), "{date}");
        assert_eq!(sheet, [0xFF; 390]);
    }
}

/// In the completion list 02 stands between 01 and 03.
#[test]
fn completion_takes_status_02() {
    let unnamed = [(60, "0"), (102, "0")];
    for (date, status, count) in [(20_231_231, b"02", 49), (20_240_101, b"04", 97)] {
        let mut sheet = [0; 390];
        let completed = complete_at(&open(&unnamed), &mut sheet, date, Record::GIVEN).unwrap();
        assert_eq!(completed.count, count);
        assert_eq!(sheet, s(&unnamed).with(101, status).sheet());
    }
}

/// What comes behind 02 in the list is 48 fillings later while 02 is in it.
#[test]
fn places_follow_the_list() {
    let order = open(&[(22, UIN), (17, ENFORCEMENT), (108, "0")]);
    for (date, count) in [(20_231_231, 49), (20_240_101, 25)] {
        let mut sheet = [0; 390];
        let completed = complete_at(&order, &mut sheet, date, Record::GIVEN).unwrap();
        assert_eq!(completed.count, count);
        let filling = s(&[(22, UIN), (17, ENFORCEMENT), (101, "03")]);
        assert_eq!(sheet, filling.sheet());
    }
}

/// A given 101 is the only status, allowed or not.
#[test]
fn a_given_status_stays() {
    for (date, answer) in [
        (20_231_231, Ok(1)),
        (20_240_101, Err(Refusal::NoFilling { count: 48 })),
    ] {
        let order = open(&[(101, "02")]);
        let completed = complete_at(&order, &mut [0; 390], date, Record::GIVEN);
        assert_eq!(completed.map(|completed| completed.count), answer);
    }
}

/// Dates of the calendar, and numbers that are none.
const DATES: [(u32, bool); 30] = [
    (0, false),
    (1, false),
    (18_991_231, false),
    (19_000_000, false),
    (19_000_100, false),
    (19_000_101, true),
    (19_000_228, true),
    (19_000_229, false),
    (19_040_229, true),
    (20_000_229, true),
    (20_000_230, false),
    (20_230_001, false),
    (20_230_229, false),
    (20_231_301, false),
    (20_231_000, false),
    (20_231_032, false),
    (20_231_131, false),
    (20_231_130, true),
    (20_240_229, true),
    (20_240_431, false),
    (20_240_630, true),
    (20_240_631, false),
    (20_240_931, false),
    (20_990_229, false),
    (20_991_231, true),
    (20_991_232, false),
    (21_000_101, false),
    (120_240_101, false),
    (2_024_010_100, false),
    (u32::MAX, false),
];

/// "12 for an order date or record entry that is no Gregorian date of the years
/// 1900 to 2099, or an order date before 20230925".
#[test]
fn error_12() {
    for (date, is_date) in DATES {
        let in_time = is_date && date >= 20_230_925;
        let answer = check_at(&s(&[]), date, Record::GIVEN);
        let expected = |taken| {
            if taken {
                Ok(Class::A)
            } else {
                Err(Refusal::Undated)
            }
        };
        assert_eq!(answer, expected(in_time), "{date}");
        let given = Record::GIVEN;
        let date = Date(date);
        for record in [
            Record {
                first32: date,
                ..given
            },
            Record {
                first33: date,
                ..given
            },
            Record {
                last02: date,
                ..given
            },
        ] {
            let answer = check_at(&s(&[]), 20_240_101, record);
            assert_eq!(answer, expected(is_date), "{record:?}");
        }
    }
    for (date, taken) in [(20_230_924, false), (20_230_925, true), (20_230_926, true)] {
        let answer = check_at(&s(&[]), date, Record::GIVEN);
        assert_eq!(answer.is_ok(), taken, "{date}");
    }
    assert_eq!(Refusal::Undated.number(), 12);
    assert_eq!(Refusal::Undated.to_string(), "12");
}

/// Every number of the years about the bounds, against a calendar that counts days.
#[test]
fn error_12_counts_the_days() {
    const LENGTHS: [u32; 12] = [31, 28, 31, 30, 31, 30, 31, 31, 30, 31, 30, 31];
    let sheet = s(&[]).sheet();
    for year in [1899, 1900, 1904, 2000, 2023, 2024, 2096, 2099, 2100] {
        let leap = matches!(year, 1904 | 2000 | 2024 | 2096);
        let last = |month: usize| LENGTHS[month] + u32::from(leap && month == 1);
        let days = |month: usize| (1..=last(month)).map(move |day| (month as u32 + 1) * 100 + day);
        let calendar: Vec<u32> = (0..12).flat_map(days).collect();
        for rest in 0..10_000 {
            let number = year * 10_000 + rest;
            let record = record(number, 20_240_101, 20_231_231);
            let taken = (1900..=2099).contains(&year) && calendar.contains(&rest);
            let answer = check(&sheet, Date(20_240_101), record);
            assert_eq!(answer.is_ok(), taken, "{number}");
        }
    }
}

/// "It comes just before 8", also for class O; after 1 and, in completion, 7.
#[test]
fn the_order_of_refusals() {
    let wrong = 20_230_924;
    let wrong_record = record(20_231_001, 20_240_101, 20_231_232);
    let malformed = [0; 389];
    for (date, record) in [(wrong, Record::GIVEN), (20_240_101, wrong_record)] {
        let answer = check(&malformed, Date(date), record);
        assert_eq!(answer, Err(Refusal::Malformed));
        let answer = complete(&malformed, &mut [0; 389], Date(date), record);
        assert_eq!(answer, Err(Refusal::Malformed));
        for order in [
            s(&[]),
            s(&[(14, "0")]),
            s(&[(101, "99")]),
            open(&[]),
            open(&[(61, "")]),
            class_b(),
            class_o(),
            class_o().with(101, b"01"),
            Texts::BLANK,
        ] {
            assert_eq!(
                check_at(&order, date, record),
                Err(Refusal::Undated),
                "{}",
                order.shown()
            );
            let mut short = [0xFF; 389];
            let answer = complete_at(&order, &mut short, date, record);
            assert_eq!(answer, Err(Refusal::Output));
            let mut sheet = [0xFF; 390];
            let answer = complete_at(&order, &mut sheet, date, record);
            assert_eq!(answer, Err(Refusal::Undated));
            assert_eq!(sheet, [0xFF; 390]);
        }
    }
}

/// A class O sheet has no status, so every date that isn't refused accepts it.
#[test]
fn class_o_at_every_date() {
    for date in [20_230_925, 20_231_001, 20_240_101, 20_991_231] {
        assert_eq!(check_at(&class_o(), date, Record::GIVEN), Ok(Class::O));
        let answer = complete_at(&class_o(), &mut [0; 390], date, Record::GIVEN);
        assert_eq!(answer, Err(Refusal::Ordinary));
    }
}

/// "The program uses the order date 20240101 and the three dates given here".
#[test]
fn the_program() {
    let unnamed = open(&[(60, "0"), (102, "0")]);
    let output = report(&unnamed.written().concat());
    let output = String::from_utf8(output).unwrap();
    assert!(output.contains("\nend ok 97\n"), "{output}");
    assert!(output.contains("\n101 04\n"), "{output}");
    let ended = report(&s(&[(101, "02")]).written().concat());
    assert!(ended.ends_with(b"\nend 10 1\n"));
}

/// Some date of the calendar, often one of the given three or a day about them.
fn some_date(random: &mut Random, earliest: u32) -> u32 {
    let near = random.pick(&[
        20_230_925, 20_230_930, 20_231_001, 20_231_002, 20_231_230, 20_231_231, 20_240_101,
        20_240_102,
    ]);
    let year = 1900 + random.below(200) as u32;
    let (month, day) = (1 + random.below(12) as u32, 1 + random.below(28) as u32);
    random
        .pick(&[near, near, 10_000 * year + 100 * month + day])
        .max(earliest)
}

/// The texts with each status of the list in 101, if it is blank; the other three
/// fields in their order. Built here from the list in force.
fn fillings_at(given: &Texts, date: u32, record: Record) -> Vec<Texts> {
    let entries = |field: u8, list: &[&'static [u8]]| -> Vec<Vec<u8>> {
        if given.get(field).is_empty() {
            list.iter().map(|entry| entry.to_vec()).collect()
        } else {
            vec![given.get(field).to_vec()]
        }
    };
    let kept = |status: &&str| allowed(status, date, record);
    let list: Vec<&[u8]> = all_statuses()
        .into_iter()
        .filter(kept)
        .map(str::as_bytes)
        .collect();
    let single = [22, 60, 102, 104, 105, 107];
    let start = single.into_iter().fold(*given, |texts, field| {
        texts.with(field, &entries(field, &[b"0"])[0])
    });
    let mut fillings = Vec::new();
    for status in entries(101, &list) {
        for basis in entries(106, &BASES) {
            for document in entries(108, &[b"0", b"00"]) {
                for day in entries(109, &[b"0", b"00"]) {
                    let filling = start.with(101, &status).with(106, &basis);
                    fillings.push(filling.with(108, &document).with(109, &day));
                }
            }
        }
    }
    fillings
}

/// Completion is the first accepted filling "for all order dates and records that
/// error 12 doesn't refuse, together".
#[test]
fn completion_at_some_dates() {
    let random = &mut Random::new(7);
    let mut counts = (0, 0);
    for _ in 0..1500 {
        let mut order = cases::blanked(cases::budget(random), random.below(1024));
        if random.percent(20) {
            cases::disturb(random, &mut order);
        }
        if random.percent(10) && !order.get(101).is_empty() {
            order = order.with(101, random.pick(&[b"02", b"32", b"33"]));
        }
        let date = some_date(random, 20_230_925);
        let record = record(
            some_date(random, 0),
            some_date(random, 0),
            some_date(random, 0),
        );
        let mut sheet = [0xFF; 390];
        let answer = complete_at(&order, &mut sheet, date, record);
        let refused = matches!(
            answer,
            Err(Refusal::Malformed | Refusal::Broken { .. } | Refusal::Ordinary)
        );
        if refused {
            continue;
        }
        let fillings = fillings_at(&order, date, record);
        let accepted = |filling: &Texts| check_at(filling, date, record).is_ok();
        let Some(index) = fillings.iter().position(accepted) else {
            let count = fillings.len() as u32;
            assert_eq!(answer, Err(Refusal::NoFilling { count }));
            assert_eq!(sheet, [0xFF; 390]);
            counts.0 += 1;
            continue;
        };
        let set = filled_set(&order);
        let completed = Completed {
            count: index as u32 + 1,
            set,
            ones: set.count_ones(),
        };
        assert_eq!(answer, Ok(completed), "{} {date} {record:?}", order.shown());
        assert_eq!(sheet, fillings[index].sheet());
        // What the test ahead names can't be completed at any date.
        assert_eq!(pretest(&draft_of(&order, |_| 1)), Ok(None));
        counts.1 += 1;
    }
    assert!(counts.0 > 100 && counts.1 > 100, "{counts:?}");
}

//! R-14: "A quick search skips all fillings of a status once a rule that reads
//! neither 106, 108 nor 109 (5, 7 to 14, 16, 19 to 24, 27, 28, 30) fails for it."

use cases::{accepted, blanked, budget, disturb, Random, Texts};
use reference::{check, complete, quick, report, statuses};
use reference::{Date, Quick, Record, Refusal, DRAFT_SIZE};

use crate::fixture::{broken, class_b, class_o, open, s};
use crate::fixture::{Change, Order, ENFORCEMENT, ORDER_DATE, UIN};
use crate::layout::draft_of;

/// The quick search, with the answer and the sheet of the search already there.
#[track_caller]
fn quick_at(order: &Texts, date: Date, record: Record) -> Quick {
    let draft = draft_of(order, |text| u32::from(!text.is_empty()));
    let (mut slow, mut fast) = ([0xEE; 390], [0xEE; 390]);
    let answer = complete(&draft, &mut slow, date, record);
    let quick = quick(&draft, &mut fast, date, record);
    assert_eq!(quick.answer, answer, "{}", order.shown());
    assert_eq!(fast, slow, "{}", order.shown());
    quick
}

/// At the program's date the quick search finds a sheet at this place, having
/// skipped so many statuses.
#[track_caller]
fn finds(order: &Texts, count: u32, skipped: u32) {
    let quick = quick_at(order, ORDER_DATE, Record::GIVEN);
    let found = quick.answer.map(|completed| completed.count);
    assert_eq!((found, quick.skipped), (Ok(count), skipped));
}

/// At the program's date none of so many fillings passes, so many statuses skipped.
#[track_caller]
fn finds_none(order: &Texts, count: u32, skipped: u32) {
    let quick = quick_at(order, ORDER_DATE, Record::GIVEN);
    let answer = Err(Refusal::NoFilling { count });
    assert_eq!(quick, Quick { answer, skipped }, "{}", order.shown());
}

#[test]
fn the_examples_of_the_paper() {
    finds(&s(&[]), 1, 0);
    finds(&open(&[]), 1, 0);
    // Rule 23 fails for 01; 03 fails by its document alone.
    finds(&open(&[(60, "0"), (102, "0")]), 97, 1);
    // Rule 22 fails for all.
    finds_none(&open(&[(17, ENFORCEMENT)]), 1056, 22);
}

/// Each of the rules that don't read the status fails for all 22.
#[test]
fn rules_without_the_status() {
    for (field, text) in [
        (17, "03100000000000014800"),
        (22, "1234"),
        (60, "7722222222"),
        (61, "7722222222"),
        (61, ""),
        (102, "000000000"),
        (103, "0"),
        (103, ""),
        (104, "00"),
        (105, "00000000"),
        (107, "00"),
        (17, ENFORCEMENT),
        (104, "0"),
        (104, ""),
    ] {
        let order = open(&[(field, text)]);
        finds_none(&order, 1056, 22);
        finds_none(&order.with(101, b"01"), 48, 1);
        finds_none(&order.with(101, b"01").with(106, b"0"), 4, 1);
    }
}

/// Each of the rules that read the status, for a given 101: "a given 101 is the only
/// one".
#[test]
fn rules_with_the_status() {
    const OTHER: &str = "03222643000000014800";
    let failing: [&[Change<'_>]; 16] = [
        &[(101, "02")],              // rule 10
        &[(101, "1")],               // 10
        &[(101, "01"), (17, OTHER)], // 19
        &[(101, "31"), (22, UIN)],   // 20
        &[(101, "33")],              // 21
        &[(101, "33"), (22, "0")],   // 21
        &[(101, "01"), (60, "0")],   // 23
        &[(101, "17")],              // 23
        &[(101, "30")],              // 23
        &[(101, "13"), (60, "0")],   // 24
        &[(101, "13"), (60, "")],    // 24
        &[(101, "08"), (102, "0")],  // 27
        &[(101, "08"), (60, "12345"), (102, "0")],
        &[(101, "08"), (60, "781023456779")],
        &[(101, "06"), (107, "0")], // 30
        &[(101, "08"), (107, "10000000")],
    ];
    for changes in failing {
        finds_none(&open(changes), 48, 1);
    }
}

/// Rules that read 106, 108 or 109 make no status skipped.
#[test]
fn rules_that_read_the_three() {
    let customs = [(101, "06"), (107, "10000000")];
    let failing: [(&[Change<'_>], &[Change<'_>], u32); 9] = [
        (&[(101, "01")], &[(106, "000")], 4),           // rule 15
        (&[(101, "01")], &[(108, "-")], 24),            // 17
        (&[(101, "01")], &[(109, "1")], 24),            // 18
        (&[(101, "24")], &[(108, "1")], 24),            // 25
        (&[(101, "33"), (22, UIN)], &[(108, "1")], 24), // 26
        (&[(101, "01")], &[(106, "00")], 4),            // 29
        (&[(101, "01")], &[(109, "01.01.2024")], 24),   // 31
        (&customs, &[(106, "00"), (108, "1")], 2),      // 33
        (&customs, &[(108, "14;12345678900")], 24),     // 35
    ];
    for (base, changes, count) in failing {
        let mut all = base.to_vec();
        all.extend(changes);
        finds_none(&open(&all), count, 0);
    }
}

/// With a blank 101 and a 106 that no rule takes: skipped are the customs group by
/// rule 30, 31 by rule 20 and 33 by rule 21.
#[test]
fn some_of_all() {
    finds_none(&open(&[(106, "000")]), 88, 9);
    // With an office it is all but 06, 07, 16, 28 and 32.
    let office = [(106, "000"), (107, "10000000")];
    finds_none(&open(&office), 88, 17);
}

/// "Of those up to the sheet's": what fails behind it doesn't count, and each
/// skipped status has its fillings in the count.
#[test]
fn up_to_the_sheet() {
    // 01, 03, 04 and 05 by rule 30.
    finds(&open(&[(107, "10000000")]), 4 * 48 + 1, 4);
    // 01 by rule 19; with a UIN 03 takes "0" in 108.
    finds(&open(&[(17, ENFORCEMENT), (22, UIN)]), 48 + 1, 1);
    // 01 by rule 23, 06 and 07 too, the others before 16 by rule 30.
    let unnamed = [(60, "0"), (102, "0"), (107, "10000000")];
    finds(&open(&unnamed), 9 * 48 + 1, 9);
}

/// "For every draft, date and record": the list follows the date.
#[test]
fn the_list_in_force() {
    let hopeless = open(&[(17, ENFORCEMENT)]);
    let always = Record {
        first32: Date(19_000_101),
        first33: Date(19_000_101),
        last02: Date(20_991_231),
    };
    let never = Record {
        first32: Date(20_991_231),
        first33: Date(20_991_231),
        last02: Date(19_000_101),
    };
    for (date, record, skipped) in [
        (20_230_925, Record::GIVEN, 21),
        (20_231_001, Record::GIVEN, 22),
        (20_240_101, Record::GIVEN, 22),
        (20_240_101, always, 23),
        (20_240_101, never, 20),
    ] {
        let quick = quick_at(&hopeless, Date(date), record);
        let count = 48 * skipped;
        let answer = Err(Refusal::NoFilling { count });
        assert_eq!(quick, Quick { answer, skipped });
    }
    let unnamed = open(&[(60, "0"), (102, "0")]);
    let quick = quick_at(&unnamed, Date(20_231_231), Record::GIVEN);
    assert_eq!(quick.answer.map(|completed| completed.count), Ok(49));
    assert_eq!(quick.skipped, 1);
    for (date, skipped) in [(20_231_231, 0), (20_240_101, 1)] {
        let given = quick_at(&open(&[(101, "02")]), Date(date), Record::GIVEN);
        assert_eq!(given.skipped, skipped);
    }
}

/// The refusals of the search, with none skipped and no buffer changed.
#[test]
fn refusals() {
    let draft = |order: Texts| draft_of(&order, |_| 1).to_vec();
    let early = Date(20_230_924);
    for (draft, size, date, refusal) in [
        (vec![0; DRAFT_SIZE - 1], 389, early, Refusal::Malformed),
        (draft(s(&[(14, "0")])), 389, early, Refusal::Output),
        (draft(s(&[(14, "0")])), 390, early, Refusal::Undated),
        (draft(s(&[(14, "0")])), 390, ORDER_DATE, broken(14, 1)),
        (draft(class_o()), 390, ORDER_DATE, Refusal::Ordinary),
    ] {
        let mut sheet = vec![0xEE; size];
        let quick = quick(&draft, &mut sheet, date, Record::GIVEN);
        let answer = Err(refusal);
        assert_eq!(quick, Quick { answer, skipped: 0 });
        assert_eq!(sheet, vec![0xEE; size]);
    }
}

/// Texts of 106, 108 and 109 that keep all rules which read them, for an order of
/// this status.
fn settled(order: &Texts) -> Texts {
    let person = matches!(&order.get(101)[..], b"03" | b"19" | b"20" | b"24");
    let document: &[u8] = if person { b"01;1" } else { b"0" };
    order.with(106, b"0").with(108, document).with(109, b"0")
}

/// Whether a rule that reads neither 106, 108 nor 109 fails for this status: whether
/// its filling is refused with the three settled. Rule 6 is then broken only by a
/// blank 61 or 103, which breaks 9 or 12 too.
fn fails(order: &Texts, status: &[u8], date: Date, record: Record) -> bool {
    let fill = |texts: Texts, field| match texts.get(field).is_empty() {
        true => texts.with(field, b"0"),
        false => texts,
    };
    let single = [22, 60, 102, 104, 105, 107];
    let filling = single.into_iter().fold(order.with(101, status), fill);
    check(&settled(&filling).sheet(), date, record).is_err()
}

/// How many fillings each status has.
fn fillings_of_status(order: &Texts) -> u32 {
    let lists = [(106, 12), (108, 2), (109, 2)];
    let blank = lists.iter().filter(|list| order.get(list.0).is_empty());
    blank.map(|list| list.1).product()
}

/// "Of those up to the sheet's, with 10 of all, exactly those for which such a rule
/// fails; a given 101 is the only one."
fn skipped_by_definition(order: &Texts, quick: Quick, date: Date, record: Record) -> u32 {
    let given = order.get(101);
    let all: Vec<&[u8]> = match given.is_empty() {
        true => statuses(date, record).collect(),
        false => vec![&given],
    };
    let up_to = match quick.answer {
        Ok(completed) => completed.count.div_ceil(fillings_of_status(order)) as usize,
        Err(Refusal::NoFilling { count }) => {
            assert_eq!(count, all.len() as u32 * fillings_of_status(order));
            all.len()
        }
        Err(_) => 0,
    };
    let failing = all[..up_to]
        .iter()
        .filter(|status| fails(order, status, date, record));
    failing.count() as u32
}

/// Some order: near an accepted one, with blanks; or near S and its accounts.
fn some_order(random: &mut Random) -> Texts {
    let mut order = match random.below(8) {
        0 => accepted(random),
        1 => class_b(),
        2 => open(&[]),
        3 => open(&[(17, ENFORCEMENT), (22, UIN)]),
        _ => budget(random),
    };
    order = blanked(order, random.below(1024));
    for _ in 0..random.pick(&[0, 0, 1, 1, 2, 3]) {
        disturb(random, &mut order);
    }
    if random.percent(5) {
        order = order.with(101, random.pick(&[b"02", b"32", b"33", b"99"]));
    }
    order
}

/// A day about those that matter, now and then refused.
fn some_date(random: &mut Random) -> Date {
    Date(random.pick(&[
        20_230_924, 20_230_925, 20_230_930, 20_231_001, 20_231_231, 20_240_101, 20_240_101,
        20_991_231,
    ]))
}

/// The given record, or another one, now and then refused.
fn some_record(random: &mut Random) -> Record {
    const ENTRIES: [u32; 8] = [
        19_000_101, 20_230_925, 20_231_001, 20_231_231, 20_240_101, 20_991_231, 20_991_231,
        20_230_229,
    ];
    let mut entry = || Date(random.pick(&ENTRIES));
    let other = Record {
        first32: entry(),
        first33: entry(),
        last02: entry(),
    };
    random.pick(&[Record::GIVEN, other, other])
}

#[test]
fn some_drafts_dates_and_records() {
    let random = &mut Random::new(14);
    let (mut found, mut none, mut refused, mut some) = (0, 0, 0, 0);
    for _ in 0..20_000 {
        let order = some_order(random);
        let (date, record) = (some_date(random), some_record(random));
        let quick = quick_at(&order, date, record);
        let skipped = skipped_by_definition(&order, quick, date, record);
        assert_eq!(quick.skipped, skipped, "{} {date:?}", order.shown());
        match quick.answer {
            Ok(_) => found += 1,
            Err(Refusal::NoFilling { .. }) => none += 1,
            Err(_) => refused += 1,
        }
        some += u32::from(skipped > 1);
    }
    let times = [found, none, refused, some];
    assert!(times.iter().all(|&times| times > 1000), "{times:?}");
}

/// "The program prints as before."
#[test]
fn the_program() {
    let unnamed = open(&[(60, "0"), (102, "0")]);
    let output = String::from_utf8(report(&unnamed.written().concat())).unwrap();
    assert!(output.contains("\nend ok 97\n"), "{output}");
    let hopeless = open(&[(17, ENFORCEMENT)]);
    assert!(report(&hopeless.written().concat()).ends_with(b"\nend 10 1056\n"));
}

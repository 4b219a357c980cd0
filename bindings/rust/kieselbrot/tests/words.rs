//! The words of rules, fields and completions.

use std::collections::BTreeSet;

use cases::{sheets, Dates, Texts, ALL_STATUSES, BASES, BLANKS, CLASS_A, FILLABLE, LISTS};
use cases::{LENGTH_PLACE, PARTY_PLACE};
use kieselbrot::words::{self, explanation};
use kieselbrot::{check, complete, pretest, Broken, Class, Date, Record, Refusal, Terms};
use kieselbrot::{windows1251, FIELDS, SHEET_SIZE};

fn draft(texts: &Texts) -> cases::Draft {
    texts.draft(|text| u32::from(!text.is_empty()))
}

/// The order's date and the record.
fn asked(dates: Dates) -> Terms {
    let [first32, first33, last02] = dates.entries().map(Date);
    let record = Record {
        first32,
        first33,
        last02,
    };
    Terms::new(Date(dates.order), record)
}

fn explained_at(texts: &Texts, dates: Dates) -> String {
    let terms = asked(dates);
    explanation(&draft(texts), terms)
}

/// At the program's dates.
fn explained(texts: &Texts) -> String {
    explained_at(texts, Dates::PROGRAM)
}

fn rule_at(number: u8, dates: Dates) -> Option<String> {
    let terms = asked(dates);
    words::rule(number, terms)
}

/// At the program's dates.
fn rule(number: u8) -> String {
    rule_at(number, Dates::PROGRAM).expect("a rule")
}

/// Sheet S with these fields blank, and these changes.
fn order(blanks: &[u8], changes: &[(u8, &str)]) -> Texts {
    let with = |texts: Texts, &(field, text): &(u8, &str)| {
        let mut bytes = [0; 25];
        let length = windows1251::encode(text, &mut bytes).expect("Windows-1251");
        texts.with(field, &bytes[..length])
    };
    changes.iter().fold(Texts::s().without(blanks), with)
}

/// What the check of a sheet names.
fn broken_at(texts: &Texts, dates: Dates) -> Option<Broken> {
    let terms = asked(dates);
    match check(&texts.sheet(), terms) {
        Err(Refusal::Broken { field, rule }) => Some(Broken { field, rule }),
        _ => None,
    }
}

/// At the program's dates.
fn broken(texts: &Texts) -> Option<Broken> {
    broken_at(texts, Dates::PROGRAM)
}

/// The program's order date, with a record for each of the eight lists.
fn with_each_list() -> impl Iterator<Item = Dates> {
    LISTS.into_iter().map(|list| Dates::PROGRAM.allowing(list))
}

#[test]
fn every_rule_and_field_has_words_of_its_own() {
    let rules: BTreeSet<String> = (1..=35).map(rule).collect();
    assert_eq!(rules.len(), 35);
    let fields: BTreeSet<_> = FIELDS.into_iter().filter_map(words::field).collect();
    assert_eq!(fields.len(), FIELDS.len());
    for text in rules.iter().map(String::as_str).chain(fields) {
        assert!(!text.is_empty() && text.trim() == text && !text.contains("  "));
        assert!(
            !text.ends_with('.') && !text.contains(['\n', '{', '}']),
            "{text}"
        );
    }
    let others = (0..=u8::MAX).filter(|number| !FIELDS.contains(number));
    assert_eq!(others.filter_map(words::field).count(), 0);
    let rule = |number| rule_at(number, Dates::PROGRAM);
    assert_eq!((36..=u8::MAX).chain([0]).find_map(rule), None);
}

#[test]
fn a_rule_names_the_field_in_its_brackets() {
    for case in sheets() {
        let Some(Broken {
            field,
            rule: number,
        }) = broken(&case.texts)
        else {
            continue;
        };
        let text = rule(number);
        let name = words::field(field).expect("a listed field");
        let named = number == 6 || text.contains(&format!("{name} ({field})"));
        assert!(named, "rule {number}, field {field}: {text}");
    }
}

#[test]
fn the_lists_of_rules_10_and_15() {
    for dates in with_each_list() {
        let text = rule_at(10, dates).expect("a rule");
        let list = dates.statuses().join(", ");
        assert!(text.ends_with(&format!(" one of {list}")), "{text}");
    }
    // Windows-1251 has the letters from А on at C0.
    let letter = |&byte: &u8| char::from_u32(u32::from(byte) - 0xC0 + u32::from('А'));
    let pair = |pair: &&[u8]| pair.iter().filter_map(letter).collect();
    let pairs: Vec<String> = BASES[2..].iter().map(pair).collect();
    assert!(rule(15).contains("\"0\", \"00\", or one of "));
    assert!(rule(15).ends_with(&pairs.join(", ")));
}

/// The statuses that a rule's words name, outside brackets.
fn statuses_in(text: &str) -> Vec<&str> {
    let outside = text.split('(').map(|part| part.split(')').next_back());
    let words = outside.flatten().flat_map(|part| part.split([' ', ',']));
    words.filter(|word| ALL_STATUSES.contains(word)).collect()
}

#[test]
fn rules_name_the_statuses_that_they_are_for() {
    const UIN: &str = "12345678901234567890";
    // Class B, with a payer that rules 23 and 27 allow.
    let class_b = |status, changes: &[(u8, &str)]| {
        let (inn, kpp) = match status {
            "17" => ("781023456779", "0"),
            "30" => ("0", "0"),
            _ => ("7701569743", "770301001"),
        };
        let fields = [(14, "044525000"), (17, "40204810000000000000")];
        let payer = [(60, inn), (102, kpp), (101, status)];
        order(&[15], &[&fields, &payer[..], changes].concat())
    };
    let class_a = |status, account| order(&[], &[(101, status), (17, account)]);
    let each = with_each_list().flat_map(|dates| {
        let statuses = dates.statuses().into_iter();
        statuses.map(move |status| (dates, status))
    });
    for (dates, status) in each {
        let hold = |rule, texts: Texts, named: bool| {
            let stops = broken_at(&texts, dates).is_some_and(|broken| broken.rule == rule);
            let text = rule_at(rule, dates).expect("a rule");
            let words = statuses_in(&text).contains(&status) == named;
            assert_eq!(stops, words, "rule {rule}, status {status}, {dates:?}");
        };
        hold(19, class_a(status, "03222643000000014800"), true);
        hold(20, class_a(status, "03100643000000014800"), true);
        hold(21, class_b(status, &[]), true);
        hold(23, class_b(status, &[(22, UIN), (60, "12345")]), true);
        hold(24, class_b(status, &[(60, "12345")]), true);
        hold(25, class_b(status, &[(60, "7701569743")]), true);
        hold(26, class_b(status, &[(22, UIN), (108, "5")]), true);
        hold(29, class_b(status, &[(22, UIN), (106, "00")]), false);
        hold(30, class_b(status, &[(22, UIN)]), true);
        hold(31, class_b(status, &[(22, UIN), (109, "00")]), false);
    }
}

/// With 02, 32 or 33 out of force, rule 19 does not name it.
#[test]
fn rule_19_names_statuses_in_force() {
    for dates in with_each_list() {
        let text = rule_at(19, dates).expect("a rule");
        let statuses = dates.statuses();
        let named = statuses_in(&text);
        assert!(named.iter().all(|status| statuses.contains(status)));
        assert_eq!(named.contains(&"02"), statuses.contains(&"02"));
    }
    let program = "with status 01, 04, 06, 07, 13, 16, 17, 28, 30 or 32, a recipient account (17) \
                   at the treasury must begin 03100";
    assert_eq!(rule(19), program);
}

#[test]
fn a_malformed_draft() {
    let expected = "This draft is malformed: it can't be read as an order.";
    let terms = asked(Dates::given(0));
    assert_eq!(explanation(&[], terms), expected);
    for (place, byte) in [(LENGTH_PLACE, 26), (PARTY_PLACE, 0), (PARTY_PLACE, 3)] {
        let mut malformed = draft(&Texts::s());
        malformed[place] = byte;
        assert_eq!(explanation(&malformed, terms), expected);
    }
}

#[test]
fn dates_that_are_refused() {
    let expected = "These dates are refused: the order's date must not be before 20230925, and it \
                    and the record's three must be dates YYYYMMDD of the years 1900 to 2099.";
    for texts in [Texts::s(), Texts::BLANK, order(&[15, 101], &[])] {
        assert_eq!(explained_at(&texts, Dates::given(20230924)), expected);
    }
}

/// All of rules 1 to 3 that are broken, with what is given.
#[test]
fn rules_1_to_3() {
    let head = "This order can't be completed yet: 14, 15 and 17 tell whether it is a budget \
                payment.";
    let bik = "- Rule 1 is broken in field 14 (BIK): the BIK (14) must be nine digits. ";
    let account = "- Rule 3 is broken in field 17 (recipient account): the recipient account (17) \
                   must be 20 digits. ";
    assert_eq!(
        explained(&order(&[], &[(14, "0045")])),
        format!("{head}\n{bik}Given: \"0045\" (4 characters, not 9).")
    );
    assert_eq!(
        explained(&Texts::BLANK),
        format!("{head}\n{bik}It is blank.\n{account}It is blank.")
    );
    let bank = explained(&order(&[], &[(15, "4010281084537000000O")]));
    assert!(bank.ends_with(
        "must be blank or 20 digits. Given: \"4010281084537000000O\" (the Latin letter O in \
         place 20, not a zero)."
    ));
}

#[test]
fn an_ordinary_order() {
    let head =
        "This is an ordinary order, not a budget payment: nothing is proposed.\nIt is so by \
                14 (BIK) \"004525987\", 15 (bank account) blank and 17 (recipient account) \
                \"03100643000000014800\". A budget payment has a bank account (15) that begins \
                40102 and ";
    let accepted = explained(&order(&[15, 101], &[]));
    assert!(accepted.starts_with(head), "{accepted}");
    assert!(accepted.ends_with("\nChecked as an ordinary order, it is accepted."));
    let refused = explained(&order(&[15], &[]));
    assert!(refused.starts_with(head), "{refused}");
    let rule_4 = "\nChecked as an ordinary order, it is refused.\n- Rule 4 is broken in field 101 \
                  (status): the status (101) of an ordinary payment must be blank. Given: \"01\".";
    assert!(refused.ends_with(rule_4), "{refused}");
    for begin in CLASS_A.iter().chain(&["40204", "40503", "40603", "40703"]) {
        assert!(refused.contains(begin), "{begin}");
    }
}

#[test]
fn completed_orders() {
    let first = "This order can be completed: filling 1 of its 1,056 is the first that keeps the \
                 rules.\nIt fills 7 fields. These are proposed, not given:\n\
                 - 22 (code): \"0\"; nothing else is tried.\n\
                 - 101 (status): \"01\" is the first of nine that would do; the others: 04 05 08 13 \
                 15 23 27 29.\n\
                 - 105 (OKTMO): \"0\"; nothing else is tried.\n\
                 - 106 (basis): \"0\", the only one of the twelve tried that would do.\n\
                 - 107 (customs office): \"0\"; nothing else is tried.\n\
                 - 108 (document): \"0\" is the first of two that would do; the other: 00.\n\
                 - 109 (date): \"0\", the only one of the two tried that would do.";
    assert_eq!(explained(&order(&BLANKS, &[])), first);
    let open = order(&BLANKS, &[(60, "0"), (102, "0")]);
    let later = explained(&open);
    assert!(later.starts_with("This order can be completed: filling 97 of its 1,056 is "));
    let back = explained_at(&open, Dates::given(20230930));
    assert!(back.starts_with("This order can be completed: filling 49 of its 1,008 is "));
    let one = "This order can be completed: its only filling keeps the rules.\nIt fills 1 field. \
               This is proposed, not given:\n- 22 (code): \"0\"; nothing else is tried.";
    assert_eq!(explained(&order(&[22], &[])), one);
    let complete = "This order can be completed: its only filling keeps the rules.\nNothing is \
                    proposed: it is complete as it is given.";
    assert_eq!(explained(&Texts::s()), complete);
}

/// A field without a list, "0" that breaks a rule, and a text that is given: all at once.
#[test]
fn three_causes_at_once() {
    let words = explained(&order(
        &[61, 104],
        &[(102, "7703О1001"), (103, "772801001 ")],
    ));
    let expected = format!(
        "This order can't be completed: its only filling breaks the rules.\nIn the way:\n\
         - 61 (recipient's INN) must be given: it is blank, and nothing is ever proposed for it; \
         rules 6 and 9: {}.\n\
         - 104 (KBK) is blank, and only \"0\" is tried for it; rule 28: {}. Given: 17 (recipient \
         account) \"03100643000000014800\".\n\
         - 102 (payer's KPP) is given as \"7703О1001\" (the Cyrillic letter О in place 5, not a \
         zero); rule 11: {}.\n\
         - 103 (recipient's KPP) is given as \"772801001␠\" (a blank at the end, 10 characters, \
         not 9); rule 12: {}.\n\
         \"0\" is all that is tried for 22, 60, 102, 104, 105 and 107.",
        rule(9),
        rule(28),
        rule(11),
        rule(12)
    );
    assert_eq!(words, expected);
}

#[test]
fn all_fillings_break_one_rule() {
    let words = explained(&order(&BLANKS, &[(104, "0")]));
    let every = format!(
        "This order can't be completed: none of its 1,056 fillings keeps the rules.\nIn the way of \
         every status:\n- 104 (KBK) is given as \"0\" and 17 (recipient account) as \
         \"03100643000000014800\"; rule 28: {}.\nIn the way of some statuses:\n- with ",
        rule(28)
    );
    assert!(words.starts_with(&every), "{words}");
    let least =
        "\nLeast is in the way of status 01, 04, 05, 08, 13, 15, 23, 27 and 29 (rule 28).\n";
    assert!(words.contains(least), "{words}");
}

#[test]
fn status_by_status() {
    let order_of = |status| {
        let changes = [(17, "03222643000000014800"), (101, status)];
        order(&[22, 102, 105, 106, 107, 108, 109], &changes)
    };
    let all = explained(&order_of(""));
    assert!(!all.contains("every status"), "{all}");
    let rule_27 = format!(
        "102 (payer's KPP) is blank, and only \"0\" is tried for it; rule 27: {}. Given: 60 \
         (payer's INN) \"7701569743\"",
        rule(27)
    );
    assert!(all.contains(&format!("\n- with all but 01: {rule_27}.\n")));
    let least =
        "\nLeast is in the way of status 01 (rule 19); 05, 08, 15, 23, 27 and 29 (rule 27).\n";
    assert!(all.contains(least), "{all}");

    // With a status that is given, what it reads is quoted.
    let head = "This order can't be completed: none of its 48 fillings keeps the rules.\nIn the \
                way:\n- ";
    let given = explained(&order_of("08"));
    let expected = format!(
        "{head}{rule_27} and 101 (status) \"08\".\n\"0\" is all that is tried for 22, 60, 102, \
         104, 105 and 107."
    );
    assert_eq!(given, expected);
    let out_of_force = explained(&order_of("02"));
    let rule_10 = format!("101 (status) is given as \"02\"; rule 10: {}.", rule(10));
    assert!(out_of_force.contains(&rule_10), "{out_of_force}");
    let unseen = explained(&order_of("\n"));
    assert!(unseen.contains("is given as \"␊\" (a character that can't be seen in place 1, "));

    // At a date that allows 02 it has causes of its own, and rule 19 names it.
    let back = Dates::given(20231015);
    let lines = explained_at(&order_of(""), back);
    let rule_19 = rule_at(19, back).expect("a rule");
    let status_02 = format!(
        "- with 01, 02, 04, 06, 07, 13, 16, 17, 28, 30 and 32: 17 (recipient account) is given as \
         \"03222643000000014800\"; rule 19: {rule_19}."
    );
    assert!(lines.lines().any(|line| line == status_02), "{lines}");
}

/// Where each filling breaks another rule, each entry has one.
#[test]
fn fillings_with_different_rules() {
    let customs = |blank, changes: [(u8, &str); 2]| {
        let texts = order(&[blank], &[(101, "06"), (107, "10000000")]);
        let with = |texts: Texts, (field, text): (u8, &str)| texts.with(field, text.as_bytes());
        explained(&changes.into_iter().fold(texts, with))
    };
    let bases = customs(106, [(108, "5"), (109, "00")]);
    let expected = "\n- where 106 is \"00\": 108 (document) is given as \"5\"; rule 33: ";
    assert!(bases.contains(expected), "{bases}");
    let expected =
        "\n- where 106 is \"0\", \"УВ\", \"ИЛ\", \"ПБ\", \"ТГ\", \"ТБ\", \"ТД\", \"ПВ\", \
                    \"ИН\", \"ПК\" or \"КЭ\": 109 (date) is given as \"00\"; rule 34: ";
    assert!(bases.contains(expected), "{bases}");
    let documents = customs(108, [(106, "00"), (109, "0")]);
    let expected =
        "In the way:\n- 109 (date) is given as \"0\" and 106 (basis) as \"00\"; rule 34: ";
    assert!(documents.contains(expected), "{documents}");
}

/// The explanation of an order says what completion answers.
fn hold_explanation(given: &Texts, dates: Dates) {
    let draft = draft(given);
    let terms = asked(dates);
    let words = explanation(&draft, terms);
    let lines: Vec<&str> = words.lines().collect();
    match complete(&draft, &mut [0; SHEET_SIZE], terms) {
        Ok(completed) => {
            assert!(lines[0].starts_with("This order can be completed: "));
            assert_eq!(lines.len() - 2, completed.set.count_ones() as usize);
        }
        Err(Refusal::NoFilling { .. }) => {
            assert!(lines[0].starts_with("This order can't be completed: "));
            // A rule that all fillings break is among the causes.
            if let Ok(Some(Broken { rule, .. })) = pretest(&draft) {
                let alone = format!("; rule {rule}: ");
                let among = format!("; rules {rule} and ");
                let is_named = |line: &&str| line.contains(&alone) || line.contains(&among);
                let every = lines.iter().filter(|line| !line.starts_with("- with"));
                assert!(every.copied().any(|line| is_named(&line)), "{words}");
            }
        }
        Err(Refusal::Broken { field, rule }) => {
            let broken = format!("\n- Rule {rule} is broken in field {field} (");
            assert!(words.contains(&broken));
        }
        Err(Refusal::Ordinary) => assert!(words.starts_with("This is an ordinary order")),
        Err(refusal) => {
            assert_eq!(refusal, Refusal::Malformed);
            assert!(words.starts_with("This draft is malformed"));
        }
    }
}

#[test]
fn explanations_of_the_table() {
    let lists: Vec<Dates> = with_each_list().collect();
    for (case, &other) in sheets().iter().zip(lists.iter().cycle()) {
        let open = case.texts.without(&BLANKS);
        for texts in [
            case.texts,
            case.texts.without(&[101]),
            case.texts.without(&FILLABLE),
            open,
            open.with(17, b"03222643000000014800").with(102, b"0"),
        ] {
            hold_explanation(&texts, Dates::PROGRAM);
            hold_explanation(&texts, other);
        }
    }
}

/// For every rule some order's explanation names it.
#[test]
fn every_rule_is_named() {
    let mut named = BTreeSet::new();
    let ordinary = order(&[15], &[]);
    for texts in sheets().iter().map(|case| case.texts).chain([ordinary]) {
        let Some(Broken { field, rule }) = broken(&texts) else {
            continue;
        };
        let words = explained(&texts);
        let name = words::field(field).expect("a listed field");
        let text = self::rule(rule);
        let yet = format!("- Rule {rule} is broken in field {field} ({name}): {text}. ");
        let cause = format!("; rule {rule}: {text}.");
        let missing = words.contains("; rules 6 and ") && rule == 6;
        if words.contains(&yet) || words.contains(&cause) || missing {
            named.insert(rule);
        }
    }
    assert_eq!(named, (1..=35).collect());
    let terms = asked(Dates::PROGRAM);
    let accepted = check(&order(&[15, 101], &[]).sheet(), terms);
    assert_eq!(accepted, Ok(Class::O));
}

/// The rules that a sheet breaks, each with what is given.
#[test]
fn broken_rules_of_a_sheet() {
    let terms = asked(Dates::PROGRAM);
    let words = |texts: &Texts| -> Vec<String> {
        let broken = words::broken(&texts.sheet(), terms).into_iter();
        broken.map(|(_, line)| line).collect()
    };
    assert_eq!(words(&Texts::s()), [""; 0]);
    let two = words(&order(&[], &[(101, "08"), (102, "0"), (105, "")]));
    let expected = [
        format!(
            "Rule 6 is broken in field 105 (OKTMO): {}. It is blank.",
            rule(6)
        ),
        format!(
            "Rule 14 is broken in field 105 (OKTMO): {}. It is blank.",
            rule(14)
        ),
        format!(
            "Rule 27 is broken in field 102 (payer's KPP): {}. Given: \"0\".",
            rule(27)
        ),
    ];
    assert_eq!(two, expected);
    assert_eq!(words::broken(&[], terms), []);
}

/// Of dates that are refused, rules 10 and 19 are told without a list.
#[test]
fn rules_at_refused_dates() {
    let refused = Dates::given(0);
    let text = rule_at(10, refused).expect("a rule");
    assert!(
        text.ends_with(" one of those that the date allows"),
        "{text}"
    );
    let text = rule_at(19, refused).expect("a rule");
    assert!(text.starts_with("with status 01, 02, 04, "), "{text}");
}

/// The first broken rule and its field are those that a check names.
#[test]
fn rules_name_the_fields_of_a_check() {
    let terms = asked(Dates::PROGRAM);
    for case in sheets() {
        let words = words::broken(&case.texts.sheet(), terms);
        let first = words.first().map(|(broken, _)| *broken);
        assert_eq!(first, broken(&case.texts));
        for (Broken { field, rule }, line) in words {
            let head = format!("Rule {rule} is broken in field {field} (");
            assert!(line.starts_with(&head), "{line}");
        }
    }
}

//! R-3: "a test of the draft ahead of it names, with its field, the first of rules
//! 5 to 9, 11 to 14, 16, 22 and 28 that all fillings break, or says none."

use cases::{fillings, Texts, FIELDS};
use reference::{complete, fresh, pretest, Broken, Record, Refusal, DRAFT_SIZE, SLOT_SIZE};

use crate::fixture::{broken, open, s, Change, Order, ENFORCEMENT, ORDER_DATE, UIN};
use crate::layout::{draft_of, LENGTH_PLACE, PARTY_PLACE};

/// The twelve rules in the order of testing.
const TWELVE: [u8; 12] = [5, 6, 7, 8, 9, 11, 12, 13, 14, 16, 22, 28];

#[test]
fn the_examples_of_the_paper() {
    s(&[]).names(None);
    open(&[]).names(None);
    let unnamed = [(60, "0"), (102, "0")];
    open(&unnamed).names(None);
    open(&unnamed).completes_to(&s(&unnamed).with(101, b"04"), 97);
    let hopeless = open(&[(17, ENFORCEMENT)]);
    hopeless.names(Some((22, 22)));
    hopeless.cannot_be_completed(1056);
}

#[test]
fn each_of_the_twelve_is_named() {
    for (field, text, rule) in [
        (17, "03100000000000014800", 5),
        (61, "", 6),
        (103, "", 6),
        (22, "1234", 7),
        (60, "7722222222", 8),
        (61, "7722222222", 9),
        (102, "000000000", 11),
        (103, "0", 12),
        (104, "00", 13),
        (105, "00000000", 14),
        (107, "00", 16),
        (104, "", 28),
        (104, "0", 28),
    ] {
        let order = open(&[(field, text)]);
        order.names(Some((field, rule)));
        // Status, basis, document and date are open.
        order.cannot_be_completed(1056);
    }
}

#[test]
fn the_first_in_the_order_of_testing_is_named() {
    let wrong = [
        (17, "03100000000000014800", 5),
        (22, "00", 7),
        (60, "00", 8),
        (61, "0", 9),
        (102, "00", 11),
        (103, "0", 12),
        (105, "00", 14),
        (107, "00", 16),
        (104, "0", 28),
    ];
    let changes = wrong.map(|(field, text, _)| (field, text));
    for (first, (field, _, rule)) in wrong.into_iter().enumerate() {
        open(&changes[first..]).names(Some((field, rule)));
    }
    open(&[]).names(None);
    // Rule 6 names the first blank one, ahead of what else is broken.
    open(&[(61, ""), (103, "")]).names(Some((61, 6)));
    open(&[(60, "00"), (103, "")]).names(Some((103, 6)));
    open(&[(104, "00"), (17, ENFORCEMENT)]).names(Some((104, 13)));
}

#[test]
fn other_rules_are_never_named_and_hide_nothing() {
    for one in [(101, "02"), (106, "000"), (108, "-"), (109, "29.02.2023")] {
        s(&[one]).names(None);
        s(&[one]).cannot_be_completed(1);
        s(&[one, (104, "0")]).names(Some((104, 28)));
        s(&[one, (17, ENFORCEMENT)]).names(Some((22, 22)));
    }
    // Rule 21 is none of the twelve, and 22 is named where both are broken.
    s(&[(101, "33")]).names(None);
    s(&[(101, "33"), (17, ENFORCEMENT)]).names(Some((22, 22)));
    s(&[(101, "33"), (17, ENFORCEMENT), (22, "1234")]).names(None);
}

#[test]
fn it_refuses_as_completion_does() {
    let mut never_given = [7; DRAFT_SIZE];
    fresh(&mut never_given).unwrap();
    let draft = |changes: &[Change<'_>]| draft_of(&s(changes), |_| 1);
    let with = |place: usize, byte| {
        let mut draft = draft(&[]);
        draft[place] = byte;
        draft
    };
    let (padded, long) = (with(SLOT_SIZE - 1, 1), with(LENGTH_PLACE, 26));
    let (partyless, revisionless) = (with(PARTY_PLACE, 0), with(PARTY_PLACE - 1, 0));
    let mut text_without_revision = partyless;
    text_without_revision[PARTY_PLACE - 1] = 0;
    let refused: [(&[u8], Refusal); 13] = [
        (&[], Refusal::Malformed),
        (&[0; DRAFT_SIZE - 1], Refusal::Malformed),
        (&[0; DRAFT_SIZE + 1], Refusal::Malformed),
        (&padded, Refusal::Malformed),
        (&long, Refusal::Malformed),
        (&partyless, Refusal::Malformed),
        (&revisionless, Refusal::Malformed),
        (&text_without_revision, Refusal::Malformed),
        (&never_given, broken(14, 1)),
        (&draft(&[(14, "0"), (15, "0"), (17, "0")]), broken(14, 1)),
        (&draft(&[(15, "0"), (17, "0")]), broken(15, 2)),
        (&draft(&[(17, "0"), (61, "")]), broken(17, 3)),
        (
            &draft(&[(15, ""), (17, "40702810000000000000")]),
            Refusal::Ordinary,
        ),
    ];
    for (draft, refusal) in refused {
        assert_eq!(pretest(draft), Err(refusal));
        let completed = complete(draft, &mut [0; 390], ORDER_DATE, Record::GIVEN);
        assert_eq!(completed, Err(refusal));
    }
}

#[test]
fn revisions_do_not_matter() {
    let draft = draft_of(&open(&[(104, "0")]), |_| u32::MAX);
    let named = Broken {
        field: 104,
        rule: 28,
    };
    assert_eq!(pretest(&draft), Ok(Some(named)));
}

/// A text for a field, with the one of rules 6 to 16 among the twelve that it
/// breaks as given or filled in, or 0.
type Choice = (&'static str, u8);

/// Texts for the fields 22, 60, 61, 101 to 109, in slot order. Four digits in 22
/// are wrong unless 17 begins 03212.
const CHOICES: [&[Choice]; 12] = [
    &[("", 0), ("0", 0), ("1234", 7), (UIN, 0), ("0000", 7)],
    &[("", 0), ("7701569743", 0), ("12345", 0), ("7701569742", 8)],
    &[
        ("6730054024", 0),
        ("6730054024", 0),
        ("6730054025", 9),
        ("", 6),
    ],
    &[
        ("", 0),
        ("01", 0),
        ("08", 0),
        ("30", 0),
        ("33", 0),
        ("02", 0),
    ],
    &[
        ("", 0),
        ("770301001", 0),
        ("7703AZ001", 0),
        ("7703az001", 11),
    ],
    &[("772801001", 0), ("7728ZA001", 0), ("0", 12), ("", 6)],
    &[
        ("", 0),
        ("0", 0),
        ("18201061201010000510", 0),
        ("00000000000000000000", 13),
    ],
    &[("", 0), ("0", 0), ("45000000", 0), ("00000000", 14)],
    &[("", 0), ("0", 0), ("00", 0), ("000", 0)],
    &[("", 0), ("0", 0), ("00000000", 0), ("1", 16)],
    &[("", 0), ("0", 0), ("14;11223344595", 0), ("-", 0)],
    &[("", 0), ("0", 0), ("00", 0), ("29.02.2023", 0)],
];

/// The differences of budget payments from S, with 5 if they break it, or 0.
const PAYMENTS: [(&[Change<'static>], u8); 6] = [
    (&[], 0),
    (&[(17, "03100000000000014800")], 5),
    (&[(17, ENFORCEMENT)], 0),
    (&[(17, "03222643000000014800")], 0),
    (&[(17, "03222000000000014800")], 5),
    (
        &[(14, "044525000"), (15, ""), (17, "40204810000000000000")],
        0,
    ),
];

/// Numbers that look random, the same in each run.
struct Numbers(u64);

impl Numbers {
    fn below(&mut self, limit: usize) -> usize {
        self.0 = self
            .0
            .wrapping_mul(6_364_136_223_846_793_005)
            .wrapping_add(1_442_695_040_888_963_407);
        (self.0 >> 33) as usize % limit
    }
}

/// Some order of a budget payment, and the field and rule that the test should
/// name, worked out from the marks in the tables.
fn some_order(numbers: &mut Numbers) -> (Texts, Option<(u8, u8)>) {
    let (payment, rule_5) = PAYMENTS[numbers.below(PAYMENTS.len())];
    let mut texts = s(payment);
    let mut marks = vec![(rule_5, 17)];
    for (&field, choices) in FIELDS[3..].iter().zip(CHOICES) {
        // Two times of three one of the first two, which are unmarked, so that
        // some drafts keep all of the twelve.
        let count = match numbers.below(3) {
            0 => choices.len(),
            _ => 2,
        };
        let (text, rule) = choices[numbers.below(count)];
        texts = texts.with(field, text.as_bytes());
        marks.push((rule, field));
    }
    let first = all_marks(&texts, marks).into_iter().min();
    (texts, first.map(|(rule, field)| (field, rule)))
}

/// These marks, with what the account makes of 22 and 104.
fn all_marks(texts: &Texts, mut marks: Vec<(u8, u8)>) -> Vec<(u8, u8)> {
    let begins = |beginning| texts.get(17).starts_with(beginning);
    let zero = |field| matches!(&texts.get(field)[..], b"" | b"0");
    marks.retain(|&(rule, _)| rule != 0);
    if begins(b"03212") && &texts.get(22)[..] == b"1234" {
        marks.retain(|&(rule, _)| rule != 7);
    }
    if begins(b"03212") && zero(22) {
        marks.push((22, 22));
    }
    if begins(b"03100") && zero(104) {
        marks.push((28, 104));
    }
    marks
}

/// What the check names first in a filling is none of the twelve, or the one named
/// by the test; it does not get past that one.
fn agrees(filling: &Texts, named: Option<(u8, u8)>) {
    let shown = || filling.shown();
    match (filling.check(), named) {
        (Err(Refusal::Broken { field, rule }), _) if TWELVE.contains(&rule) => {
            assert_eq!(named, Some((field, rule)), "{}", shown());
        }
        (Err(Refusal::Broken { rule, .. }), Some((_, wanted))) => {
            assert!(rule < wanted, "{}", shown());
            assert_ne!((rule, wanted), (21, 22), "{}", shown());
        }
        (answer, _) => assert!(named.is_none(), "{} {answer:?} {named:?}", shown()),
    }
}

#[test]
fn some_drafts_and_all_their_fillings() {
    let mut numbers = Numbers(1);
    let mut times_named = [0; 12];
    let mut times_none = 0;
    for _ in 0..3000 {
        let (order, named) = some_order(&mut numbers);
        order.names(named);
        let fillings = fillings(&order);
        for filling in &fillings {
            agrees(filling, named);
        }
        let Some((_, rule)) = named else {
            times_none += 1;
            continue;
        };
        order.cannot_be_completed(fillings.len() as u32);
        times_named[TWELVE.iter().position(|&one| one == rule).unwrap()] += 1;
    }
    assert!(
        times_named.iter().all(|&times| times > 0),
        "{times_named:?}"
    );
    assert!(times_none > 0);
}

//! The types over bytes: a draft, a sheet, dates, and refusals in words.

use cases::{Random, Texts};
use kieselbrot::{check, complete, copy, slot_of, words, Completed, Date, Draft, Party, Posted};
use kieselbrot::{Record, Refusal, Sheet, Terms, DRAFT_SIZE, FIELDS, SHEET_SIZE};

const TERMS: Terms = Terms::given(Date(20240101));

/// Each accessor gives what was given, and the rest is as fresh.
#[test]
fn a_draft_by_field() {
    let mut random = Random::new(38);
    for _ in 0..1_000 {
        let texts = cases::budget(&mut random);
        let mut draft = Draft::new();
        for (number, field) in (1..).zip(FIELDS) {
            let party = [Party::CLIENT, Party::ADVISER][usize::from(number % 2 == 0)];
            if field != 108 {
                let posted = draft.give(party, field, number, &texts.get(field));
                assert_eq!(posted, Ok(Posted::Newer));
                assert_eq!(
                    (draft.revision(field), draft.party(field)),
                    (number, Some(party))
                );
            }
        }
        assert_eq!((draft.revision(108), draft.party(108)), (0, None));
        let texts = texts.with(108, b"");
        assert!(draft.texts().map(|(field, _)| field).eq(FIELDS));
        for (field, text) in draft.texts() {
            assert_eq!((text, draft.text(field)), (&*texts.get(field), text));
        }
        let sheet = draft.sheet().expect("a draft");
        assert_eq!(*sheet.as_bytes(), texts.sheet());
        let mut copied = [0; SHEET_SIZE];
        copy(&draft, &mut copied).expect("a draft");
        assert_eq!(<[u8; SHEET_SIZE]>::from(sheet), copied);
    }
}

/// Methods answer what the functions do.
#[test]
fn methods_are_the_functions() {
    let mut random = Random::new(39);
    let mut completed = 0;
    for _ in 0..2_000 {
        let texts = cases::budget(&mut random).without(&[22, 101, 105, 106, 107, 108, 109]);
        let draft = Draft::from(texts.draft(|text| u32::from(!text.is_empty())));
        let mut sheet = Sheet::new();
        let answer = complete(&draft, &mut sheet, TERMS);
        assert_eq!(draft.complete(TERMS), answer.map(|answer| (sheet, answer)));
        assert_eq!(sheet.check(TERMS), check(sheet.as_bytes(), TERMS));
        let Ok(answer) = answer else { continue };
        completed += 1;
        assert!(answer.filled().all(|field| draft.text(field).is_empty()));
        assert_eq!(answer.filled().count(), answer.ones as usize);
        let mut taken = draft;
        taken.take_up(&sheet, answer.filled()).expect("a proposal");
        assert_eq!(taken.sheet(), Ok(sheet));
        assert!(answer
            .filled()
            .all(|field| taken.party(field) == Some(Party::ADVISER)));
    }
    assert!(completed > 100, "{completed}");
}

#[test]
fn filled_fields_are_those_of_the_set() {
    for set in 0..1 << FIELDS.len() {
        let ones = u16::count_ones(set);
        let filled = Completed {
            count: 1,
            set,
            ones,
        }
        .filled();
        let slots = filled.map(|field| 1 << slot_of(field).expect("a listed field"));
        assert_eq!(slots.sum::<u16>(), set);
    }
}

/// Any bytes may stand in a draft or a sheet, and no accessor fails.
#[test]
fn any_bytes() {
    let mut random = Random::new(40);
    for _ in 0..1_000 {
        let sheet = Sheet::from(std::array::from_fn(|_| random.below(256) as u8));
        let draft = Draft::from(std::array::from_fn(|_| random.below(256) as u8));
        for field in 0..=u8::MAX {
            let most = if slot_of(field).is_some() { 25 } else { 0 };
            assert!(sheet.text(field).len() <= most && draft.text(field).len() <= most);
            let known = draft
                .party(field)
                .is_none_or(|party| matches!(party.0, 1 | 2));
            assert!(known && (most > 0 || draft.revision(field) == 0));
        }
        assert!(!format!("{sheet:?} {draft:?}").is_empty());
    }
    for size in [0, 1, SHEET_SIZE - 1, SHEET_SIZE + 1, DRAFT_SIZE] {
        assert_eq!(
            Sheet::try_from(&[0; DRAFT_SIZE][..size]),
            Err(Refusal::Malformed)
        );
    }
    assert_eq!(Sheet::try_from(&[0; SHEET_SIZE][..]), Ok(Sheet::default()));
    assert_eq!(
        Draft::try_from(&[0; SHEET_SIZE][..]),
        Err(Refusal::Malformed)
    );
    assert_eq!(Draft::try_from(&[0; DRAFT_SIZE][..]), Ok(Draft::default()));
}

#[test]
fn a_sheet_changed() {
    let sheet = Sheet::from(Texts::s().sheet());
    assert_eq!(sheet.with(101, b"08").text(101), b"08");
    assert_eq!(sheet.with(101, b"").text(101), b"");
    assert_eq!(sheet.with(101, b"08").with(101, sheet.text(101)), sheet);
    assert_eq!(sheet.with(16, b"08"), sheet);
    assert_eq!(sheet.with(22, &[b'7'; 30]).text(22), [b'7'; 25]);
    assert_eq!(Sheet::from_lines(b"none"), Err(Refusal::NoLines));
    let unlisted = Draft::new().take_up(&sheet, [16]);
    assert_eq!(unlisted, Err(Refusal::UnknownField));
}

#[test]
fn dates_in_parts() {
    for number in [19000101, 20240229, 20991231, 0, u32::MAX] {
        let date = Date(number);
        let parts = date.year() * 10_000 + date.month() * 100 + date.day();
        assert_eq!(parts, number);
    }
    assert_eq!(Date::of(2024, 2, 29), Date(20240229));
    assert_eq!(Date(20240229).to_string(), "2024-02-29");
    let terms = Terms::new(Date(1), Record::GIVEN);
    assert_eq!((terms.date, terms.record), (Date(1), Record::GIVEN));
}

/// Each refusal is shown in words of its own, and its number is that of the table.
#[test]
fn refusals_in_words() {
    let all = [
        Refusal::Malformed,
        Refusal::Length,
        Refusal::UnknownVersion,
        Refusal::UnknownField,
        Refusal::RevisionZero,
        Refusal::Clash,
        Refusal::Output,
        Refusal::Broken {
            field: 101,
            rule: 10,
        },
        Refusal::Ordinary,
        Refusal::NoFilling { count: 960 },
        Refusal::NoLines,
        Refusal::Undated,
        Refusal::UnknownParty,
        Refusal::Tariff,
        Refusal::YearPart,
        Refusal::Register,
        Refusal::Discrepancy { difference: -7 },
        Refusal::Queue,
        Refusal::EqualArrivals,
        Refusal::NotTakenUp { field: 60 },
    ];
    for (number, refusal) in (1..).zip(all) {
        assert_eq!(refusal.number(), number);
        let (shown, text) = (refusal.to_string(), words::refusal(number).expect("a text"));
        let is_table = shown.starts_with(text) || number == 8;
        assert!(is_table && !shown.ends_with('.'), "{shown}");
    }
    let shown = |refusal: Refusal| refusal.to_string();
    assert_eq!(shown(all[7]), "rule 10 is broken in field 101 (status)");
    assert_eq!(shown(all[9]), "no filling keeps the rules: there are 960");
    assert!(shown(all[16]).ends_with("the difference is -7 kopecks"));
    assert!(shown(all[19]).ends_with(": field 60 (payer's INN)"));
    let no_slot = Refusal::NotTakenUp { field: 0 };
    assert_eq!(Some(shown(no_slot).as_str()), words::refusal(20));
    let unknown = shown(Refusal::Unknown { number: 77 });
    assert_eq!(unknown, "the linked library is another one: it answers 77");
}

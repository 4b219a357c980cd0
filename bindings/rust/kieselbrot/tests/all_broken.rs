//! All broken rules: differences from the paper's sheet S, and the rules that they break.

use cases::Texts;
use kieselbrot::{broken_rules, check, BrokenRules, Date, Refusal, Terms, SHEET_SIZE};

/// A field and its text.
type Change = (u8, &'static [u8]);

/// The sheet of S with these texts.
fn sheet(changes: &[Change]) -> Vec<u8> {
    let change = |texts: Texts, &(field, text): &Change| texts.with(field, text);
    changes.iter().fold(Texts::s(), change).sheet().to_vec()
}

#[test]
fn every_broken_rule_is_told() {
    let table: [(&[Change], &[u8]); 9] = [
        (&[], &[]),
        (&[(101, b"02")], &[10]),
        (&[(101, b"31")], &[20, 21]),
        (&[(17, b"03212643000000014800"), (101, b"31")], &[21, 22]),
        (&[(108, b"14;1")], &[35]),
        (&[(14, b"")], &[1]),
        (&[(14, b""), (101, b"99"), (109, b"00")], &[1, 10, 31, 34]),
        (&[(17, b"03100")], &[3, 5]),
        (&[(14, b"1"), (15, b"")], &[1, 4]),
    ];
    for (changes, rules) in table {
        let sheet = sheet(changes);
        let told = broken_rules(&sheet, Terms::given(Date(20240101))).unwrap();
        assert_eq!(told.iter().collect::<Vec<u8>>(), rules, "{changes:?}");
        assert_eq!(told.len() as usize, rules.len());
        assert_eq!(told.is_empty(), rules.is_empty());
        let checked = check(&sheet, Terms::given(Date(20240101)));
        match checked {
            Ok(_) => assert!(told.is_empty(), "{changes:?}"),
            Err(Refusal::Broken { rule, .. }) => assert!(told.contains(rule), "{changes:?}"),
            Err(refusal) => panic!("{refusal}"),
        }
    }
}

#[test]
fn it_refuses_as_a_check_does() {
    let at = |sheet: &[u8], date| broken_rules(sheet, Terms::given(Date(date)));
    assert_eq!(at(&[0; SHEET_SIZE - 1], 20240101), Err(Refusal::Malformed));
    assert_eq!(at(&[0; SHEET_SIZE - 1], 20230924), Err(Refusal::Malformed));
    assert_eq!(at(&[0; SHEET_SIZE], 20230924), Err(Refusal::Undated));
}

#[test]
fn a_set_has_the_bits_of_rules_alone() {
    assert_eq!(BrokenRules::new(1), None);
    assert_eq!(BrokenRules::new(1 << 36), None);
    let all = BrokenRules::new((1 << 36) - 2).unwrap();
    assert!(all.iter().eq(1..=35));
    assert!(!all.contains(0) && !all.contains(36) && !all.contains(255));
}

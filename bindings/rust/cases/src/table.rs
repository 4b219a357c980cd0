//! The table `sheets.txt`.

use std::collections::BTreeSet;

use crate::texts::{Text, Texts};

const TABLE: &str = include_str!("../sheets.txt");

/// A case of the table.
#[derive(Clone, Debug)]
pub struct Case {
    /// What the case is about.
    pub name: &'static str,
    /// The texts of the sheet.
    pub texts: Texts,
    /// The verdict as a line: `ok` and the class, or the refusal's number and what
    /// it returns.
    pub verdict: String,
}

/// All cases of the table, in its order.
///
/// # Panics
///
/// If the table is not written as its head says.
#[must_use]
pub fn sheets() -> Vec<Case> {
    TABLE
        .lines()
        .filter(|line| !line.starts_with('#') && !line.trim().is_empty())
        .map(case)
        .collect()
}

fn case(line: &'static str) -> Case {
    let parts: Vec<&str> = line.split('|').map(str::trim).collect();
    let [name, changes, verdict] = parts[..] else {
        panic!("not three parts: {line}");
    };
    let mut texts = Texts::s();
    let mut changed = BTreeSet::new();
    for change in changes.split(',').filter(|change| !change.is_empty()) {
        let (field, text) = change.split_once('=').expect("FIELD=TEXT");
        let field = field.parse().expect("a field number");
        assert!(changed.insert(field), "changed twice: {line}");
        texts.set(field, unescaped(text));
    }
    Case {
        name,
        texts,
        verdict: verdict_line(verdict),
    }
}

fn unescaped(text: &str) -> Text {
    let mut bytes = Vec::new();
    let mut rest = text.chars();
    while let Some(character) = rest.next() {
        bytes.push(match character {
            '\\' => {
                assert_eq!(rest.next(), Some('x'), "in {text}");
                let digits: String = rest.by_ref().take(2).collect();
                u8::from_str_radix(&digits, 16).expect("two hexadecimal digits")
            }
            'А'..='я' => (u32::from(character) - u32::from('А')) as u8 + 0xC0,
            '!'..='~' => character as u8,
            _ => panic!("no such character: {text}"),
        });
    }
    assert!(bytes.len() <= 31, "too long: {text}");
    Text::new(&bytes)
}

fn verdict_line(verdict: &str) -> String {
    match verdict.strip_prefix("accepted ") {
        Some(class) => format!("ok {class}"),
        None if verdict == "malformed" => "1".into(),
        None => format!("8 {verdict}"),
    }
}

#[cfg(test)]
mod tests {
    use super::*;
    use crate::dates::STATUSES;
    use crate::forms::{BASES, CLASS_A, CLASS_B};

    #[test]
    fn the_table_is_read_whole() {
        let cases = sheets();
        assert_eq!(cases.len(), 656);
        assert_eq!(cases[0].texts, Texts::s());
        assert_eq!(cases[0].verdict, "ok A");
        assert_eq!(cases[2].verdict, "8 102 27");
    }

    #[test]
    fn names_are_unique() {
        let mut names = BTreeSet::new();
        for case in sheets() {
            assert!(!case.name.is_empty());
            assert!(names.insert(case.name), "twice: {}", case.name);
        }
    }

    /// The fields and rules of all cases that break one.
    fn broken() -> Vec<(u8, u8)> {
        let number = |item: &str| item.parse().expect("a number");
        sheets()
            .iter()
            .filter_map(|case| case.verdict.strip_prefix("8 ")?.split_once(' '))
            .map(|(field, rule)| (number(field), number(rule)))
            .collect()
    }

    #[test]
    fn every_rule_is_somewhere_the_first_broken_one() {
        let rules: BTreeSet<u8> = broken().iter().map(|&(_, rule)| rule).collect();
        assert_eq!(rules, (1..=35).collect());
    }

    #[test]
    fn every_blank_of_rule_6_is_named() {
        let of_rule_6 = broken().into_iter().filter(|&(_, rule)| rule == 6);
        let fields: BTreeSet<u8> = of_rule_6.map(|(field, _)| field).collect();
        let expected = [22, 60, 61, 101, 102, 103, 104, 105, 106, 107, 108, 109];
        assert_eq!(fields, expected.into());
    }

    /// Whether a sheet with this verdict has a text that begins so in this field.
    fn some(verdict: &str, field: u8, begin: &[u8]) -> bool {
        sheets()
            .iter()
            .any(|case| case.verdict == verdict && case.texts.get(field).starts_with(begin))
    }

    #[test]
    fn every_status_account_and_pair_is_accepted() {
        for status in STATUSES {
            assert!(some("ok A", 101, status.as_bytes()), "status {status}");
        }
        for account in CLASS_A {
            assert!(some("ok A", 17, account.as_bytes()), "account {account}");
        }
        for account in CLASS_B {
            assert!(some("ok B", 17, account.as_bytes()), "account {account}");
        }
        for (number, pair) in (1..).zip(&BASES[2..]) {
            assert!(some("ok A", 106, pair), "pair {number}");
        }
        assert!(some("ok O", 101, b""));
    }
}

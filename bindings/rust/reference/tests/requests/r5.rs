//! "22 is tested ahead of 21, both keeping their numbers."

use cases::{CLASS_A, STATUSES};
use reference::{Class, Refusal};

use crate::fixture::{broken, class_b, s, Order, ENFORCEMENT, UIN};

#[test]
fn the_account_is_named_as_the_cause() {
    for status in ["31", "33"] {
        s(&[(17, ENFORCEMENT), (101, status), (22, "0")]).broken(22, 22);
    }
}

#[test]
fn four_digits_still_break_rule_21() {
    for status in ["31", "33"] {
        s(&[(17, ENFORCEMENT), (101, status), (22, "1234")]).broken(22, 21);
    }
}

#[test]
fn rule_21_elsewhere_and_rule_22_alone_stay() {
    s(&[(101, "33")]).broken(22, 21);
    s(&[(17, ENFORCEMENT), (101, "08")]).broken(22, 22);
    let budget = class_b().with(17, b"40204810000000000000");
    budget.with(101, b"31").broken(22, 21);
}

#[test]
fn rules_up_to_20_still_come_first() {
    for (field, text, rule) in [
        (17, "03212000000000014800", 5),
        (22, "", 6),
        (22, "0000", 7),
        (60, "7722222222", 8),
        (61, "7722222222", 9),
        (102, "000000000", 11),
        (103, "000000000", 12),
        (104, "00", 13),
        (105, "00", 14),
        (106, "000", 15),
        (107, "00", 16),
        (108, "-", 17),
        (109, "000", 18),
        (17, "03222643000000014800", 20),
    ] {
        let zero_code = [(17, ENFORCEMENT), (101, "31"), (22, "0")];
        let order = s(&zero_code).with(field, text.as_bytes());
        order.broken(field, rule);
    }
    s(&[(17, ENFORCEMENT), (101, "01"), (22, "0")]).broken(17, 19);
}

#[test]
fn a_uin_is_accepted_as_before() {
    for status in ["31", "33"] {
        s(&[(17, ENFORCEMENT), (101, status), (22, UIN)]).accepted();
    }
}

/// What rules 7 and 19 to 22 say in the new order of S with this account, status
/// and code; `None` if they are kept.
fn expected(account: &str, status: &str, code: &str) -> Option<(u8, u8)> {
    const TREASURY: [&str; 10] = ["01", "04", "06", "07", "13", "16", "17", "28", "30", "32"];
    let enforcement = account.starts_with("03212");
    if code == "1234" && !enforcement {
        Some((22, 7))
    } else if TREASURY.contains(&status) && !account.starts_with("03100") {
        Some((17, 19))
    } else if status == "31" && !enforcement {
        Some((17, 20))
    } else if enforcement && code == "0" {
        Some((22, 22))
    } else if ["31", "33"].contains(&status) && code != UIN {
        Some((22, 21))
    } else {
        None
    }
}

/// S with this account, status and code answers as [`expected`].
fn answers(account: &str, status: &str, code: &str) {
    let answer = s(&[(17, account), (101, status), (22, code)]).check();
    let context = format!("{account} {status} {code}: {answer:?}");
    match (expected(account, status, code), answer) {
        (Some((field, rule)), _) => assert_eq!(answer, Err(broken(field, rule)), "{context}"),
        (None, Ok(class)) => assert_eq!(class, Class::A, "{context}"),
        (None, Err(Refusal::Broken { rule, .. })) => assert!(rule > 22, "{context}"),
        (None, Err(_)) => panic!("{context}"),
    }
}

#[test]
fn all_accounts_statuses_and_codes() {
    for account in CLASS_A.map(|beginning| format!("{beginning}643000000014800")) {
        for status in STATUSES {
            for code in ["0", "1234", UIN] {
                answers(&account, status, code);
            }
        }
    }
}

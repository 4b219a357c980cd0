//! "Rules 8 and 9 now also want the tax service's check digits."

use cases::Texts;
use reference::Class;

use crate::fixture::{class_b, open, s, Order};

/// S with this ten-digit payer.
fn ten(inn: &str) -> Texts {
    s(&[(60, inn)])
}

/// S with this recipient.
fn recipient(inn: &str) -> Texts {
    s(&[(61, inn)])
}

/// S with this twelve-digit payer.
fn twelve(inn: &str) -> Texts {
    s(&[(60, inn), (102, "0")])
}

#[test]
fn the_samples_of_the_request() {
    ten("7701569743").accepted();
    recipient("7701569743").accepted();
    twelve("781023456779").accepted();
    ten("7722222222").broken(60, 8);
    recipient("7722222222").broken(61, 9);
    twelve("781023456789").broken(60, 8);
}

#[test]
fn one_tenth_digit_is_right() {
    // The sums are 234, 274 and 242: they leave 3, 10 and 0.
    for (first_nine, right) in [("770156974", 3), ("770156979", 0), ("770156975", 0)] {
        for tenth in 0..=9 {
            let inn = format!("{first_nine}{tenth}");
            if tenth == right {
                ten(&inn).accepted();
                recipient(&inn).accepted();
            } else {
                ten(&inn).broken(60, 8);
                recipient(&inn).broken(61, 9);
            }
        }
    }
}

#[test]
fn one_eleventh_and_one_twelfth_digit_are_right() {
    // What the two sums leave: 7 and 9, 10 and 7, 0 and 10, 10 and 10.
    for (first_ten, right) in [
        ("7810234567", 79),
        ("7810234578", 7),
        ("7810234586", 0),
        ("7810234623", 0),
    ] {
        for last_two in 0..=99 {
            let order = twelve(&format!("{first_ten}{last_two:02}"));
            if last_two == right {
                order.accepted();
            } else {
                order.broken(60, 8);
            }
        }
    }
}

#[test]
fn a_right_twelfth_digit_does_not_make_up_for_the_eleventh() {
    // The eleventh would be 7; over 78102345678 the second sum leaves 6.
    twelve("781023456786").broken(60, 8);
}

#[test]
fn beginning_00_is_refused_as_before() {
    for inn in ["0000000000", "0012345673"] {
        ten(inn).broken(60, 8);
        recipient(inn).broken(61, 9);
    }
    for inn in ["000000000000", "001234567887"] {
        twelve(inn).broken(60, 8);
    }
    ten("0100000004").accepted();
    recipient("0100000004").accepted();
}

#[test]
fn the_digits_are_counted_as_before() {
    for inn in ["770156974", "77015697430", "7701569743000", "770156974A"] {
        ten(inn).broken(60, 8);
        recipient(inn).broken(61, 9);
    }
    recipient("781023456779").broken(61, 9);
}

#[test]
fn foreign_codes_and_zero_have_no_check_digits() {
    for code in ["12345", "00001", "99999"] {
        s(&[(101, "08"), (60, code)]).accepted();
    }
    s(&[(101, "08"), (60, "0")]).accepted();
    s(&[(60, "12345")]).broken(60, 23);
}

#[test]
fn rule_8_comes_before_what_the_status_wants() {
    for status in ["01", "06", "07", "13", "17", "24", "30", "32"] {
        for inn in ["7722222222", "781023456789"] {
            s(&[(101, status), (60, inn)]).broken(60, 8);
        }
    }
    s(&[(60, "7722222222"), (61, "7722222222")]).broken(60, 8);
}

#[test]
fn the_rules_on_length_stay() {
    let person = (60, "781023456779");
    s(&[(101, "06"), person]).broken(60, 23);
    s(&[(101, "17")]).broken(60, 23);
    s(&[person]).broken(102, 27);
    s(&[(101, "24"), person, (102, "0"), (108, "0")]).accepted();
}

#[test]
fn class_o_has_no_such_rule() {
    let ordinary = s(&[(15, ""), (17, "40702810000000000000"), (101, "")]);
    let wrong = b"7722222222";
    ordinary.with(60, wrong).with(61, wrong).of_class(Class::O);
}

#[test]
fn class_b_has_the_rules_too() {
    let budget = class_b().with(17, b"40204810000000000000");
    budget.with(61, b"7722222222").broken(61, 9);
    budget.of_class(Class::B);
}

#[test]
fn a_draft_one_digit_off_cannot_be_completed() {
    for wrong in [(60, "7701569742"), (61, "6730054025")] {
        open(&[wrong]).cannot_be_completed(1056);
    }
    open(&[]).completes_to(&s(&[]), 1);
}

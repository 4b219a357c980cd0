//! R-1, pension numbers, and R-2, letters in a KPP.

use cases::{Texts, STATUSES};
use reference::{report, Class};

use crate::fixture::{broken, class_b, class_o, of_status, open, person, s};
use crate::fixture::{Order, ENFORCEMENT, PAIR};

/// The paper's examples; no request built here changes one.
#[test]
fn the_examples_of_the_paper_stand() {
    s(&[]).accepted();
    s(&[(102, "0")]).accepted();
    s(&[(101, "08"), (102, "0")]).broken(102, 27);
    s(&[(101, "02")]).broken(101, 10);
    s(&[(101, "31")]).broken(17, 20);
    s(&[(17, ENFORCEMENT), (101, "31"), (22, "1234")]).broken(22, 21);
    s(&[(101, "13"), (60, "12345")]).broken(60, 24);
    person("14;11223344595").accepted();
    person("0").broken(108, 25);
    class_b().of_class(Class::B);
    class_o().with(101, b"01").broken(101, 4);
    let zeros = [(106, "00"), (108, "00"), (109, "00")];
    let customs = s(&zeros).with(101, b"06").with(107, b"10000000");
    customs.accepted();
    customs.with(109, b"0").broken(109, 34);
    s(&[(109, "29.02.2023")]).broken(109, 18);
    s(&[(109, "29.02.2024")]).broken(109, 31);
}

/// The paper's examples of completion; no request built here changes one.
#[test]
fn the_completions_of_the_paper_stand() {
    open(&[]).completes_to(&s(&[]), 1);
    let unnamed = [(60, "0"), (102, "0")];
    open(&unnamed).completes_to(&s(&unnamed).with(101, b"04"), 97);
    let enforcement = open(&[(17, ENFORCEMENT)]);
    enforcement.cannot_be_completed(1056);
    let unnamed = enforcement.with(60, b"0").with(102, b"0");
    unnamed.cannot_be_completed(1056);
}

/// "An identifier of type 14 has exactly 11 digits after the ";"."
#[test]
fn r1_exactly_11_digits() {
    for width in 1..=12 {
        let order = person(format!("14;{}", "0".repeat(width)));
        if width == 11 {
            order.accepted();
        } else {
            order.broken(108, 35);
        }
    }
    for place in 3..14 {
        // The bytes beside the digits, a letter of each alphabet, and ";".
        for byte in [b'/', b':', b'A', b'~', b';', 0xC0] {
            let mut document = *b"14;00000000000";
            document[place] = byte;
            person(document).broken(108, 35);
        }
    }
}

/// Rule 17 comes first and is as it was.
#[test]
fn r1_leaves_rule_17() {
    person("14;").broken(108, 17);
    person("14;0000000000000").broken(108, 17);
    person("14;0000000000-").broken(108, 17);
    person("15;11223344595").broken(108, 17);
}

/// "11223344595 passes with sum 95. The sample 14;12345678900 of source document
/// 000 now fails: 165 leaves 64."
#[test]
fn r1_samples() {
    person("14;11223344595").accepted();
    person("14;12345678900").broken(108, 35);
    person("14;12345678964").accepted();
}

/// The last two that rule 35 takes after these nine digits.
fn last_two_taken(nine: &str) -> Vec<u32> {
    let taken = |last_two: &u32| match person(format!("14;{nine}{last_two:02}")).check() {
        Ok(class) => class == Class::A,
        refused => {
            assert_eq!(refused, Err(broken(108, 35)));
            false
        }
    };
    (0..100).filter(taken).collect()
}

/// "Where the first nine digits read as a number above 1001998".
#[test]
fn r1_small_numbers_end_in_any_two_digits() {
    let any: Vec<u32> = (0..100).collect();
    for nine in ["000000000", "000000001", "000999999", "001001998"] {
        assert_eq!(last_two_taken(nine), any, "{nine}");
    }
    assert_eq!(last_two_taken("001001999"), [65]);
    assert_eq!(last_two_taken("001002000"), [15]);
}

/// "The last two must equal the sum of the nine digits times 9, 8, down to 1".
#[test]
fn r1_weights() {
    assert_eq!(last_two_taken("100000000"), [9]);
    for (place, weight) in (1..9).zip([8, 7, 6, 5, 4, 3, 2, 1]) {
        for digit in 0..=9 {
            let mut nine = *b"100000000";
            nine[place] += digit;
            let nine = String::from_utf8_lossy(&nine);
            let sum = 9 + u32::from(digit) * weight;
            assert_eq!(last_two_taken(&nine), [sum], "{nine}");
        }
    }
}

/// "Modulo 101, with 100 written 00".
#[test]
fn r1_modulo_101() {
    for (nine, last_two) in [
        ("920000010", 99), // sum 99
        ("920000100", 0),  // 100
        ("920000101", 0),  // 101
        ("920000102", 1),  // 102
        ("996100000", 0),  // 201
        ("996100001", 0),  // 202
        ("996100002", 1),  // 203
        ("999999999", 1),  // 405
    ] {
        assert_eq!(last_two_taken(nine), [last_two], "{nine}");
    }
}

/// Only "an identifier of type 14" is meant.
#[test]
fn r1_other_documents_stay() {
    let types = [
        "01", "02", "03", "04", "05", "06", "07", "08", "09", "10", "11", "12", "13", "22", "24",
        "25", "26", "28", "29", "30",
    ];
    for kind in types {
        person(format!("{kind};12345678900")).accepted();
        person(format!("{kind};1")).accepted();
    }
    for document in ["1412345678900", "141;12345678900", "1;14;2345678900", "14"] {
        s(&[(108, document)]).accepted();
    }
}

/// The rule asks for no status; under 31 and 33 rule 26 comes first.
#[test]
fn r1_every_status() {
    for status in STATUSES {
        let order = of_status(status);
        order.accepted();
        let kept = order.with(108, b"14;11223344595");
        let wrong = order.with(108, b"14;12345678900");
        if matches!(status, "31" | "33") {
            kept.broken(108, 26);
            wrong.broken(108, 26);
        } else {
            kept.accepted();
            wrong.broken(108, 35);
        }
    }
}

/// "The rest is for A and B."
#[test]
fn r1_every_class() {
    let wrong = b"14;12345678900";
    class_b().with(108, b"14;11223344595").of_class(Class::B);
    class_b().with(108, wrong).broken(108, 35);
    class_o().with(108, wrong).of_class(Class::O);
}

/// "New rule 35, tested after 34, field 108".
#[test]
fn r1_tested_last() {
    let wrong = s(&[(108, "14;12345678900")]);
    let customs = wrong.with(101, b"06").with(107, b"10000000");
    let order = customs.with(106, PAIR);
    order.broken(108, 35);
    order.with(109, b"00").broken(109, 34);
    order.with(106, b"00").broken(108, 33);
    order.with(107, b"0").broken(107, 30);
    order.with(104, b"0").broken(104, 28);
    order.with(102, b"0").broken(102, 27);
    order.with(60, b"0").broken(60, 23);
    order.with(101, b"31").broken(17, 20);
    order.with(109, b"1").broken(109, 18);
    wrong.with(109, b"29.02.2024").broken(109, 31);
    wrong.with(106, PAIR).broken(106, 29);
}

/// "Acceptance and completion count 35 among the rules from here on."
#[test]
fn r1_completion() {
    let blanks = [22, 101, 105, 106, 107, 109];
    let kept = person("14;11223344595");
    let filling = kept.with(101, b"03");
    kept.without(&blanks).completes_to(&filling, 25);
    kept.completes_to(&kept, 1);
    let wrong = person("14;12345678900");
    wrong.without(&blanks).cannot_be_completed(528);
    wrong.cannot_be_completed(1);
    assert!(report(&wrong.written().concat()).ends_with(b"\n15 newer\nend 10 1\n"));
    assert!(report(&kept.written().concat()).ends_with(b"\n108 14;11223344595\n109 0\n"));
    // A blank 108 gets "0" or "00", so nothing changes there.
    let blank = s(&[]).without(&[101, 106, 108, 109]);
    blank.completes_to(&s(&[]), 1);
}

/// The two KPP fields with the rule of their form.
const KPP_RULES: [(u8, u8); 2] = [(102, 11), (103, 12)];

/// "Rules 11 and 12 accept "A" to "Z" there besides digits, and digits alone
/// elsewhere": each byte at each place.
#[test]
fn r2_every_byte_at_every_place() {
    for (field, rule) in KPP_RULES {
        for place in 1..=9 {
            for byte in 0..=u8::MAX {
                let mut kpp = *b"770301001";
                kpp[place - 1] = byte;
                let order = s(&[]).with(field, &kpp);
                let allowed: &[u8] = match place {
                    5 | 6 => b"0123456789ABCDEFGHIJKLMNOPQRSTUVWXYZ",
                    _ => b"0123456789",
                };
                if allowed.contains(&byte) {
                    order.accepted();
                } else {
                    order.broken(field, rule);
                }
            }
        }
    }
}

/// Each of "places 5 and 6" is a digit or a letter by itself.
#[test]
fn r2_every_pair_at_places_5_and_6() {
    let bytes: Vec<u8> = (b'0'..=b'9').chain(b'A'..=b'Z').collect();
    for &fifth in &bytes {
        for &sixth in &bytes {
            let kpp = [b'7', b'7', b'0', b'3', fifth, sixth, b'0', b'0', b'1'];
            s(&[]).with(102, &kpp).with(103, &kpp).accepted();
        }
    }
}

/// Still nine places, not beginning 00.
#[test]
fn r2_the_rest_of_the_form_stays() {
    for (field, rule) in KPP_RULES {
        for kpp in ["7703AZ00", "7703AZ0011", "AZ", "A", "00", "000000000"] {
            s(&[(field, kpp)]).broken(field, rule);
        }
        for kpp in ["0003AZ001", "000301001", "0000AZ000"] {
            s(&[(field, kpp)]).broken(field, rule);
        }
        for kpp in ["0103AZ001", "1003AZ001", "0100AZ000", "0100ZA000"] {
            s(&[(field, kpp)]).accepted();
        }
    }
    s(&[(102, "0")]).accepted();
    s(&[(103, "0")]).broken(103, 12);
    s(&[(103, "")]).broken(103, 6);
}

/// Field 102 is tested ahead of 103, with letters as without.
#[test]
fn r2_order() {
    let order = s(&[(102, "7703az001"), (103, "7703az001")]);
    order.broken(102, 11);
    order.with(101, b"02").broken(101, 10);
    order.with(102, b"7703AZ001").broken(103, 12);
    order.with(102, b"0").broken(103, 12);
}

/// "Every sheet accepted before is still accepted", here one for each status, and
/// each with letters in the KPPs it has.
#[test]
fn r2_every_status() {
    for status in STATUSES {
        let order = of_status(status);
        order.accepted();
        let order = order.with(103, b"7728AZ001");
        order.accepted();
        if &order.get(102)[..] != b"0" {
            order.with(102, b"7703ZA001").accepted();
        }
    }
}

/// "In rule 27 a KPP other than "0" has this form."
#[test]
fn r2_rule_27() {
    for kpp in ["770301001", "7703AZ001"] {
        let payer = |inn, kpp| s(&[(101, "08"), (60, inn), (102, kpp)]);
        // "60 of 12 digits: "0"".
        payer("781023456779", "0").accepted();
        payer("781023456779", kpp).broken(102, 27);
        // "Of 5: not "0"".
        payer("12345", "0").broken(102, 27);
        payer("12345", kpp).accepted();
        // "Of 10: not "0" unless status 01".
        payer("7701569743", "0").broken(102, 27);
        payer("7701569743", kpp).accepted();
        s(&[(102, "0")]).accepted();
        s(&[(102, kpp)]).accepted();
        // With 60 "0" it demands nothing.
        payer("0", kpp).accepted();
    }
}

/// Class B has the same rules 11 and 12, class O none.
#[test]
fn r2_every_class() {
    let both = |order: Texts, kpp| order.with(102, kpp).with(103, kpp);
    both(class_b(), b"7703AZ001").of_class(Class::B);
    both(class_b(), b"7703az001").broken(102, 11);
    both(class_o(), b"7703az001").of_class(Class::O);
}

/// Completion takes the rules as they now are; a blank 102 still gets "0".
#[test]
fn r2_completion() {
    let letters = [(102, "7703AZ001"), (103, "7728AZ001")];
    open(&letters).completes_to(&s(&letters), 1);
    let wrong = open(&letters).with(103, b"7728aZ001");
    wrong.cannot_be_completed(1056);
    let filling = s(&letters).with(102, b"0");
    filling.without(&[102]).completes_to(&filling, 1);
}

//! With `--json` every subcommand prints JSON as RFC 8259 has it, one object a line.

use crate::json::{objects, one, Value};
use crate::running::{run_on, Ran};

const SHEET: &str = "14 004525987\n15 40102810845370000004\n17 03100643000000014800\n22 0\n\
                     60 7701569743\n61 6730054024\n101 01\n102 770301001\n103 772801001\n\
                     104 18201061201010000510\n105 0\n106 0\n107 0\n108 0\n109 0\n";

/// Runs a subcommand with `--json`; what it prints reads, and no error is told.
#[track_caller]
fn ran(arguments: &[&str], input: &str, status: i32) -> Ran {
    let ran = run_on(&[arguments, &["--json"]].concat(), input.as_bytes());
    assert_eq!((ran.status, &*ran.error), (status, ""), "{arguments:?}");
    objects(&ran.out);
    ran
}

/// Every subcommand, with an answer and with a refusal.
#[test]
fn every_subcommand() {
    let order = SHEET.replace(' ', " 1 ");
    let book: String = order.lines().map(|line| format!("a {line}\n")).collect();
    let block = run_on(&["swift", "-"], SHEET.as_bytes()).out;
    let broken = SHEET.replace("101 01", "101 02");
    for (arguments, input, refused) in [
        (&["complete", "-"][..], &*order, "14 1 \"\\<\n"),
        (&["book", "-"], &book, "a\u{7F}\"\\ 14 1 \"\\<\n"),
        (&["check", "-"], SHEET, &broken),
        (&["swift", "-"], SHEET, &broken),
        (&["swift", "--read", "-"], &block, "x"),
        (
            &["register", "-", "--amount", "1.00"],
            "781023456779 1.00\n",
            "781023456779 2.00\n",
        ),
        (
            &["leave", "-", "--balance", "1.00"],
            "1 1 1.00\n",
            "1 1 1.00\n1 1 1.00\n",
        ),
    ] {
        ran(arguments, input, 0);
        ran(arguments, refused, 1);
    }
    for (answered, refused) in [
        (
            &["charge", "1.00", "1", "0k", "1k"][..],
            &["charge", "1.00", "1", "2k", "1k"][..],
        ),
        (&["part", "1.00", "1", "365"], &["part", "1.00", "1", "364"]),
        (
            &["shares", "1.00", "365", "365"],
            &["shares", "1.00", "365", "1"],
        ),
    ] {
        ran(answered, "", 0);
        ran(refused, "", 1);
    }
}

/// An ordinary order has no causes; what it breaks as such is told as by a check.
#[test]
fn an_ordinary_order() {
    let ordinary = "14 1 044525225\n17 1 40702810500000000001\n101 1 01\n";
    let object = one(&ran(&["complete", "-"], ordinary, 1).out);
    assert_eq!(object.get("answer").number(), 9);
    assert_eq!(object.get("causes"), &Value::Array(vec![]));
    let sheet = ordinary.replace(" 1 ", " ");
    let checked = one(&ran(&["check", "-"], &sheet, 1).out);
    assert_eq!(object.get("broken"), checked.get("broken"));
    assert_eq!(object.get("broken").items()[0].get("rule").number(), 4);
}

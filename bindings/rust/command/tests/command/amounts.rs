//! `charge`, `part`, `shares`, `register` and `leave`.

use crate::json::one;
use crate::running::{run, run_on};

fn told(arguments: &[&str]) -> (i32, String) {
    let ran = run(arguments);
    assert!(ran.error.is_empty() || ran.status > 0);
    (ran.status, ran.out)
}

#[test]
fn charges() {
    let charge = |amount: &str| told(&["charge", amount, "0.50%", "30.00", "2000.00"]);
    assert_eq!(charge("10000.00"), (0, "The charge is 50.00.\n".into()));
    assert_eq!(charge("1000.00"), (0, "The charge is 30.00.\n".into()));
    assert_eq!(charge("1000100k"), (0, "The charge is 50.01.\n".into()));
    assert_eq!(charge("0.00"), (1, String::new()));
    let json = one(&run(&["charge", "--json", "10000.00", "50", "0k", "0k"]).out);
    assert_eq!(json.get("kopecks").number(), 0);
    let json = one(&run(&["charge", "--json", "10000.00", "50", "1k", "0k"]).out);
    assert_eq!(json.get("answer").number(), 14);
    for wrong in [
        &["charge"][..],
        &["charge", "1", "50", "0k", "0k"],
        &["charge", "1k", "x", "0k", "0k"],
    ] {
        assert_eq!(told(wrong), (2, String::new()));
    }
}

#[test]
fn parts_and_shares() {
    let part = "The part is 0.84; 340 of 365 parts of a kopeck remain.\n";
    assert_eq!(told(&["part", "1000k", "31", "365"]), (0, part.into()));
    assert_eq!(told(&["part", "1000k", "366", "365"]).0, 1);
    assert_eq!(told(&["part", "1000k", "31"]).0, 2);
    let json = one(&run(&["part", "--json", "10.00", "31", "365"]).out);
    assert_eq!(
        (json.get("kopecks").number(), json.get("remainder").number()),
        (84, 340)
    );
    assert_eq!(
        told(&["shares", "10.00", "365", "306", "59"]),
        (0, "306 8.38\n59 1.62\n".into())
    );
    assert_eq!(told(&["shares", "10.00", "365", "306"]).0, 1);
    assert_eq!(told(&["shares", "10.00", "365", "-306"]).0, 2);
    let months = [
        "31", "28", "31", "30", "31", "30", "31", "31", "30", "31", "30", "31",
    ];
    let json = one(&run(&[&["shares", "--json", "1000k", "365"], &months[..]].concat()).out);
    assert_eq!(json.get("kopecks").numbers().iter().sum::<i64>(), 1000);
    let long = one(&run(&[&["shares", "--json", "1000k", "365", "1"], &months[..]].concat()).out);
    assert_eq!(long.get("answer").number(), 15);
}

#[test]
fn registers() {
    let register = b"781023456779 0.05\n123456789047 7k\n# a comment\n781023456779 0.01\n";
    let ran = run_on(&["register", "-", "--amount", "0.13"], register);
    assert_eq!(
        (ran.status, &*ran.out),
        (0, "781023456779 0.06\n123456789047 0.07\n")
    );
    let json = run_on(&["register", "-", "--amount=13k", "--json"], register);
    let pooled = one(&json.out).get("pooled").items().to_vec();
    assert_eq!(pooled[0].get("inn").text(), "781023456779");
    assert_eq!(pooled[0].get("kopecks").number(), 6);
    let ran = run_on(&["register", "-", "--amount", "0.14"], register);
    assert_eq!(ran.status, 1);
    assert_eq!(
        ran.error,
        "The register's total is 0.01 less than the order's amount.\n"
    );
    let json = run_on(&["register", "-", "--amount", "1k", "--json"], register);
    let object = one(&json.out);
    assert_eq!(
        (
            object.get("answer").number(),
            object.get("difference").number()
        ),
        (17, 12)
    );
    let wrong = b"781023456779 0.05\n781023456789 0.05\n7810 1k\n781023456779 0k\n";
    let ran = run_on(&["register", "-", "--amount", "0.14"], wrong);
    assert_eq!(ran.status, 1);
    let lines: Vec<&str> = ran.error.lines().skip(1).collect();
    assert_eq!(lines.len(), 3, "{lines:?}");
    for (line, number) in lines.iter().zip(2..) {
        assert!(line.starts_with(&format!("standard input:{number}: the INN is not")));
    }
    let ran = run_on(&["register", "-", "--amount", "0.14"], b"781023456779\n");
    assert_eq!(ran.status, 2);
    assert!(ran.error.starts_with("standard input:1: \"\" is no amount"));
    assert_eq!(run_on(&["register", "-"], register).status, 2);
    assert_eq!(
        run_on(&["register", "-", "--amount", "0.14"], b"").status,
        1
    );
    // More lines than a register has.
    let long = "781023456779 0.05\n".repeat(501);
    assert_eq!(
        run_on(&["register", "-", "--amount", "25.05"], long.as_bytes()).status,
        1
    );
}

#[test]
fn payments() {
    let payments = b"3 7 0.05\n1 9 5k\n1 2 5k\n";
    let ran = run_on(&["leave", "-", "--balance", "0.12"], payments);
    let expected = "1 2 0.05 paid\n1 9 0.05 paid\n3 7 0.05 waits\n\n2 payments paid with 0.10; 0.02 is left.\n";
    assert_eq!((ran.status, &*ran.out), (0, expected));
    let json = one(&run_on(&["leave", "-", "--balance", "12k", "--json"], payments).out);
    assert_eq!(json.get("order").numbers(), [2, 9, 7]);
    assert_eq!(json.get("paid").number(), 2);
    assert_eq!(
        (json.get("sum").number(), json.get("left").number()),
        (10, 2)
    );
    let none = run_on(&["leave", "-", "--balance", "12k"], b"");
    assert_eq!(
        (none.status, &*none.out),
        (0, "\n0 payments paid with 0.00; 0.12 is left.\n")
    );
    let equal = run_on(&["leave", "-", "--balance", "12k"], b"1 2 5k\n2 2 5k\n");
    assert_eq!(equal.status, 1);
    assert!(equal
        .error
        .ends_with("standard input:2: arrival number 2 stands in line 1, too\n"));
    let wrong = run_on(
        &["leave", "-", "--balance", "12k"],
        b"1 2 5k\n6 3 5k\n1 4 0k\n999 5 1k\n",
    );
    assert_eq!(wrong.status, 1);
    assert_eq!(wrong.error.lines().count(), 4, "{}", wrong.error);
    for wrong in [
        &b"x 2 5k"[..],
        b"1 4294967296 5k",
        b"1 2",
        b"1  2 5k",
        b"\xFF",
    ] {
        assert_eq!(run_on(&["leave", "-", "--balance", "12k"], wrong).status, 2);
    }
    let many: String = (0..65).map(|arrival| format!("1 {arrival} 1k\n")).collect();
    let ran = run_on(
        &["leave", "-", "--balance", "12k", "--json"],
        many.as_bytes(),
    );
    assert_eq!(one(&ran.out).get("answer").number(), 18);
}

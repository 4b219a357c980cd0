//! `check` and `swift`.

use std::fmt::Write;

use crate::json::one;
use crate::running::{run, run_on, sample};

/// The lines FIELD TEXT of an order's texts, if they can be written.
fn lines(texts: &cases::Texts) -> Option<String> {
    let mut lines = String::new();
    for field in cases::FIELDS {
        let text = texts.get(field);
        // A slot has room for 25.
        if text.len() > 25 || text.contains(&b'\n') || text.contains(&b'\r') || text.contains(&0x98)
        {
            return None;
        }
        if !text.is_empty() {
            let text = order::windows1251::text(&text);
            writeln!(lines, "{field} {text}").expect("a string");
        }
    }
    Some(lines)
}

/// The table of sheets gets the verdicts that it states.
#[test]
fn the_table_of_sheets() {
    let mut checked = 0;
    for case in cases::sheets() {
        let Some(lines) = lines(&case.texts) else {
            continue;
        };
        checked += 1;
        let ran = run_on(&["check", "--json", "-"], lines.as_bytes());
        let object = one(&ran.out);
        let verdict = match object.get("answer").number() {
            0 => format!("ok {}", object.get("class").text()),
            answer => {
                let first = &object.get("broken").items()[0];
                assert!(!first.get("wants").text().is_empty());
                assert_eq!(object.get("rule"), first.get("rule"));
                format!(
                    "{answer} {} {}",
                    first.get("field").number(),
                    first.get("rule").number()
                )
            }
        };
        assert_eq!(verdict, case.verdict, "{}", case.name);
        assert_eq!(ran.status, i32::from(!verdict.starts_with("ok")));
    }
    assert!(checked > 600, "{checked}");
}

const S: &str = "14 004525987\n15 40102810845370000004\n17 03100643000000014800\n22 0\n\
                 60 7701569743\n61 6730054024\n101 01\n102 770301001\n103 772801001\n\
                 104 18201061201010000510\n105 0\n106 0\n107 0\n108 0\n109 0\n";

#[test]
fn words_of_a_check() {
    let ran = run_on(&["check", "-"], S.as_bytes());
    assert_eq!(
        (ran.status, &*ran.out),
        (
            0,
            "Accepted: class A, a budget payment to an account at the treasury.\n"
        )
    );
    let broken = S.replace("101 01", "101 02");
    let ran = run_on(&["check", "-"], broken.as_bytes());
    assert_eq!(ran.status, 1);
    assert!(ran.out.starts_with(
        "Rule 10 is broken in field 101 (status): the status (101) must be one of 01, 03"
    ));
    // All broken rules, each with what is given.
    let two = S
        .replace("102 770301001", "102 77030100")
        .replace("105 0", "105 ");
    let ran = run_on(&["check", "-"], two.as_bytes());
    let rules: Vec<&str> = ran.out.lines().map(|line| &line[..7]).collect();
    assert_eq!(rules, ["Rule 6 ", "Rule 11", "Rule 14"]);
    assert!(ran
        .out
        .contains(" Given: \"77030100\" (8 characters, not 9).\n"));
    let ran = run_on(&["check", "--json", "-"], two.as_bytes());
    assert_eq!(one(&ran.out).get("broken").items().len(), 3);
    let back = run_on(&["check", "--date", "2023-12-31", "-"], broken.as_bytes());
    assert_eq!(back.status, 0);
    let undated = run_on(&["check", "--date", "2023-09-24", "-"], S.as_bytes());
    assert_eq!(undated.status, 1);
    assert!(
        undated.out.starts_with("These dates are refused"),
        "{}",
        undated.out
    );
    let undated = run_on(
        &["check", "--date", "2023-09-24", "-", "--json"],
        S.as_bytes(),
    );
    assert_eq!(one(&undated.out).get("answer").number(), 12);
}

#[test]
fn wrong_lines_of_a_sheet() {
    let wrong = "14 004525987\n\n# a comment\n16 1\nx\n14\n108 漢\n22 00000000000000000000000000\n";
    let ran = run_on(&["check", "-"], wrong.as_bytes());
    assert_eq!(ran.status, 2);
    assert!(ran.out.is_empty());
    let told: Vec<&str> = ran.error.lines().collect();
    assert_eq!(told.len(), 4, "{told:?}");
    for (line, number) in told.iter().zip([4, 5, 7, 8]) {
        assert!(
            line.starts_with(&format!("standard input:{number}: ")),
            "{line}"
        );
    }
    let twice = run_on(&["check", "-"], b"14 1\n15 2\n14 1\n");
    assert_eq!(twice.status, 2);
    assert_eq!(
        twice.error,
        "standard input:3: field 14 (BIK) is given in line 1 already\n"
    );
    assert_eq!(run_on(&["check", "-"], b"14 \xC0\n").status, 2);
}

#[test]
fn mt103_lines_there_and_back() {
    let written = run_on(&["swift", "-"], S.as_bytes());
    let block = ":26T:S01\n:57D://RU004525987.40102810845370000004\n:59:/03100643000000014800\n\
                 INN6730054024.KPP772801001\n:72:/UIP/0\n";
    assert_eq!((written.status, &*written.out), (0, block));
    let read = run_on(&["swift", "--read", "-"], block.as_bytes());
    let texts = "14 004525987\n15 40102810845370000004\n17 03100643000000014800\n22 0\n\
                 61 6730054024\n101 01\n103 772801001\n";
    assert_eq!((read.status, &*read.out), (0, texts));
    let json = one(&run_on(&["swift", "--json", "-"], S.as_bytes()).out);
    let lines: Vec<&str> = json
        .get("lines")
        .items()
        .iter()
        .map(|line| line.text())
        .collect();
    assert!(block.lines().eq(lines));
    let json = one(&run_on(&["swift", "--json", "--read", "-"], block.as_bytes()).out);
    assert_eq!(json.get("fields").items().len(), 7);
    assert_eq!(
        json.get("fields").items()[6].get("text").text(),
        "772801001"
    );

    let refused = run_on(&["swift", "--read", "-"], &block.as_bytes()[1..]);
    assert_eq!(refused.status, 1);
    assert!(refused.out.is_empty());
    assert!(refused
        .error
        .starts_with("This block is not the MT103 lines"));
    let refused = run_on(&["swift", "--read", "--json", "-"], b"");
    assert_eq!(one(&refused.out).get("answer").number(), 11);
    let broken = run_on(&["swift", "-"], b"14 1\n");
    assert_eq!(broken.status, 1);
    assert!(broken.error.contains("rule 1 is broken in field 14 (BIK)"));
    let usage = run_on(&["swift", "--read", "--date", "20240101", "-"], b"");
    assert_eq!(usage.status, 2);
    assert!(run(&["swift".as_ref(), sample("order.txt").as_os_str()]).status == 2);
}

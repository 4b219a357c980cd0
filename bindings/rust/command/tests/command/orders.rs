//! `complete`.

use std::fs;

use crate::json::{objects, one, Value};
use crate::running::{run, run_on, sample, Try};

const SAMPLES: [&str; 13] = [
    "order",
    "hopeless",
    "status-by-status",
    "client",
    "two-payers",
    "two-payers-turned",
    "late",
    "nine-statuses",
    "no-recipient",
    "no-kbk",
    "unseen",
    "three-causes",
    "ordinary",
];

/// What is told is what stands below the program's report, and the table has its texts.
#[test]
fn samples_are_completed_as_the_program_does() {
    for name in SAMPLES {
        let stored = fs::read_to_string(sample(&format!("{name}.report"))).expect("a report");
        let (report, words) = stored.split_once("\n\n").expect("words below the report");
        let order = sample(&format!("{name}.txt"));
        let ran = run(&["complete".as_ref(), order.as_os_str()]);
        assert!(ran.error.is_empty());
        assert_eq!(ran.out, words);
        let (_, table) = ran.out.rsplit_once("\n\n").expect("the table");
        let mut lines = table.lines();
        assert!(lines.next().is_some_and(|head| head.ends_with("  from")));
        assert_eq!(lines.clone().count(), 15);
        let sheet = report.lines().skip_while(|line| !line.starts_with("end"));
        let mut sheet = sheet.peekable();
        let is_completed = sheet.next().is_some_and(|end| end.starts_with("end ok"));
        let status = match (is_completed, words.contains(" clash in field ")) {
            (false, _) => 1,
            (true, false) => 0,
            (true, true) => 3,
        };
        assert_eq!(ran.status, status);
        for (line, expected) in lines.zip(sheet) {
            let (field, text) = expected.split_once(' ').expect("FIELD TEXT");
            assert_eq!(line[..5].trim(), field);
            let shown: String = line.chars().skip(26).take(25).collect();
            assert_eq!(shown.trim(), text);
        }
    }
}

#[test]
fn origins_are_told() {
    let ran = run(&["complete".as_ref(), sample("client.txt").as_os_str()]);
    for line in [
        "   22  code               0                          proposed",
        "  101  status             01                         proposed; blank by line 28 (message 15), revision 2, client",
        "  102  payer's KPP        770301001                  line 21 (message 12), revision 1, adviser",
        "  108  document           17/А                       line 16 (message 9), revision 2, client",
    ] {
        assert!(ran.out.lines().any(|told| told == line), "{line}\n{}", ran.out);
    }
    let blanked = run_on(&["complete", "-"], b"14 1 004525987\n22 2\n22 1 7\n");
    assert_eq!(blanked.status, 1);
    let line = "   22  code                                          blank by line 2 (message 2), revision 2, adviser";
    assert!(
        blanked.out.lines().any(|told| told == line),
        "{}",
        blanked.out
    );
}

/// A clash, a line that does not read, and marks of an editor.
const FLAWED: &str = "\u{FEFF}14 1 004525987\r\n15 1 40102810845370000004\r\n\
                      17 1 03100643000000014800\r\n60 2 7701569743\r\nclient 60 2 1\r\n\
                      60 2 7701569735\r\n61 1 6730054024\r\n16 1 x\r\n103 1 772801001\r\n\
                      104 2 18201061201010000510\r\nclient 108 2 17/А\r\nclient 108 2 17/Б\r\n\
                      102 1 770301001";

#[test]
fn flaws_are_told_before_the_answer() {
    let ran = run_on(&["complete", "-"], FLAWED.as_bytes());
    assert_eq!(ran.status, 3);
    let told = &ran.out;
    let expected =
        "Line 8 does not read: \"16\" is no field; the fields are 14 15 17 22 60 61 101 \
                    102 103 104 105 106 107 108 109.\n\
                    Lines 4 and 6 (messages 4 and 6) clash in field 60 (payer's INN), revision 2, \
                    adviser: \"7701569743\" stands, \"7701569735\" does not count. Ask which is \
                    right.\n\
                    Lines 11 and 12 (messages 10 and 11) clash in field 108 (document), revision \
                    2, client: \"17/А\" stands, \"17/Б\" does not count. Ask which is right.\n\n\
                    Line 5 (message 5), revision 2, client, \"1\" (1 character, not 10 or 12) in \
                    field 60 (payer's INN), is older than line 4 (message 4), revision 2, adviser, \
                    and does not count.\n\n\
                    This order can be completed: filling 1 of its 528 is ";
    assert!(told.starts_with(expected), "{told}");

    let json = run_on(&["complete", "--json", "-"], FLAWED.as_bytes());
    assert_eq!(json.status, 3);
    let object = one(&json.out);
    assert_eq!(object.get("answer").number(), 0);
    assert_eq!(object.get("count").number(), 1);
    assert_eq!(
        object.get("filled").numbers(),
        [22, 101, 105, 106, 107, 109]
    );
    assert_eq!(object.get("messages").number(), 12);
    let fields = object.get("fields").items();
    let of = |slot: usize, name: &str| fields[slot].get(name).clone();
    assert_eq!(of(4, "text").text(), "7701569743");
    assert_eq!(of(4, "line").number(), 4);
    assert_eq!(of(13, "from").text(), "message");
    assert_eq!(of(13, "text").text(), "17/А");
    assert_eq!(of(13, "party").text(), "client");
    assert_eq!(of(14, "from").text(), "proposed");
    let clashes = object.get("clashes").items();
    assert_eq!(clashes.len(), 2);
    assert_eq!(clashes[1].get("stands").get("line").number(), 11);
    assert_eq!(clashes[1].get("refused").get("text").text(), "17/Б");
    let unread = object.get("unread").items();
    assert_eq!(unread.len(), 1);
    assert_eq!(unread[0].get("line").number(), 8);
    let words = object.get("words").text();
    assert!(
        told.contains(&format!("\n\n{words}\n\nfield  name ")),
        "{words}"
    );
}

/// A refusal is 1, whatever else there is.
#[test]
fn a_refusal_is_told_first() {
    let ran = run_on(&["complete", "-", "--json"], b"14 1 1\n14 1 2\nx\n");
    assert_eq!(ran.status, 1);
    let object = one(&ran.out);
    assert_eq!(object.get("answer").number(), 8);
    assert_eq!(object.get("field").number(), 14);
    assert_eq!(object.get("rule").number(), 1);
    assert_eq!(object.get("clashes").items().len(), 1);
    // Rules 1 to 3 that are broken; what is blank is missing.
    let told = |object: &Value| {
        let causes = object.get("causes").items().iter();
        let cause = |cause: &Value| {
            let numbers = ["rule", "field"].map(|name| cause.get(name).number());
            (numbers, cause.get("kind").text().to_owned())
        };
        causes.map(cause).collect::<Vec<_>>()
    };
    let (given, missing) = ("given".to_owned(), "missing".to_owned());
    assert_eq!(
        told(&object),
        [([1, 14], given.clone()), ([3, 17], missing.clone())]
    );
    let ran = run(&[
        "complete".as_ref(),
        "--json".as_ref(),
        sample("three-causes.txt").as_os_str(),
    ]);
    let object = one(&ran.out);
    let zero = "only zero".to_owned();
    assert_eq!(
        told(&object),
        [
            ([6, 103], missing.clone()),
            ([12, 103], missing),
            ([27, 102], zero),
            ([14, 105], given)
        ]
    );
    let causes = object.get("causes").items();
    assert_eq!(causes[2].get("fields").numbers(), [102]);
    assert_eq!(causes[2].get("beside").numbers(), [60, 101]);
    let wants = "the OKTMO (105) must be \"0\", or 8 digits, not all zero";
    assert_eq!(causes[3].get("wants").text(), wants);
    assert_eq!(causes[3].get("statuses"), &Value::Null);
    let json = run(&[
        "complete".as_ref(),
        "--json".as_ref(),
        sample("hopeless.txt").as_os_str(),
    ]);
    let object = one(&json.out);
    assert_eq!(object.get("answer").number(), 10);
    assert_eq!(object.get("count").number(), 1056);
    assert_eq!(object.get("skipped").number(), 22);
}

#[test]
fn dates_choose_the_statuses() {
    let order = Try::new(
        &[
            &fs::read(sample("order.txt")).expect("a sample")[..],
            b"60 9 0\n102 9 0\n",
        ]
        .concat(),
    );
    let status_at = |options: &[&str]| {
        let arguments = [&["complete", "--json", order.path()], options].concat();
        let object = one(&run(&arguments).out);
        match object.get("answer").number() {
            0 => object.get("fields").items()[6]
                .get("text")
                .text()
                .to_owned(),
            answer => answer.to_string(),
        }
    };
    assert_eq!(status_at(&[]), "04");
    assert_eq!(status_at(&["--date", "20231231"]), "02");
    assert_eq!(status_at(&["--date=2023-12-31"]), "02");
    assert_eq!(
        status_at(&["--date", "2024-01-02", "--last02", "20240102"]),
        "02"
    );
    assert_eq!(
        status_at(&["--date", "2023-12-31", "--last02", "2023-12-30"]),
        "04"
    );
    assert_eq!(status_at(&["--date", "2023-02-29"]), "12");
    assert_eq!(status_at(&["--first32", "2023-02-29"]), "12");
    assert_eq!(status_at(&["--first33", "2024-00-01"]), "12");
    let ran = run(&["complete", order.path(), "--date", "today"]);
    assert_eq!(ran.status, 2);
    assert!(ran.error.contains(
        "--date \"today\" is not written YYYY-MM-DD or YYYYMMDD; see kieselbrot complete --help"
    ));
    assert!(ran.out.is_empty());
}

/// Texts of control characters stay on their line, and in JSON they are as they were.
#[test]
fn control_characters() {
    let order = b"14 1 \x1B[31m\t\x01\"\\\n15 1 \xD0\x94<b>\n";
    let ran = run_on(&["complete", "-"], order);
    assert!(ran.out.contains("␛[31m␉␁\"\\ "), "{}", ran.out);
    assert!(!ran.out.contains('\x1B'));
    let json = run_on(&["complete", "-", "--json"], order);
    assert_eq!(objects(&json.out).len(), 1);
    let fields = one(&json.out).get("fields").items().to_vec();
    assert_eq!(fields[0].get("text").text(), "\x1B[31m\t\x01\"\\");
    assert_eq!(fields[1].get("text").text(), "Д<b>");
}

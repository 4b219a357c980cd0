//! The tools on the sample orders, and on a wrong one.

use std::env;
use std::fs;
use std::io::Write;
use std::path::{Path, PathBuf};
use std::process::{Command, Output, Stdio};

use kieselbrot::{Broken, Refusal};

/// A sample's file, with this ending.
fn sample(name: &str, ending: &str) -> PathBuf {
    let samples = Path::new(env!("CARGO_MANIFEST_DIR")).join("../../samples");
    samples.join(name).with_extension(ending)
}

fn order(path: impl AsRef<Path>) -> Output {
    Command::new(env!("CARGO_BIN_EXE_order"))
        .arg(path.as_ref())
        .output()
        .expect("the tool runs")
}

/// What `explain` answers for messages on standard input.
fn explained(messages: &[u8]) -> Output {
    let mut tool = Command::new(env!("CARGO_BIN_EXE_explain"))
        .stdin(Stdio::piped())
        .stdout(Stdio::piped())
        .stderr(Stdio::piped())
        .spawn()
        .expect("the tool runs");
    let mut input = tool.stdin.take().expect("its input");
    input.write_all(messages).expect("it reads");
    drop(input);
    tool.wait_with_output().expect("it ends")
}

/// What `explain` writes of messages.
fn explain(messages: &[u8]) -> String {
    let output = explained(messages);
    assert!(output.status.success() && output.stderr.is_empty());
    String::from_utf8(output.stdout).expect("UTF-8")
}

/// What `explain` answers for an order file.
fn explain_file(path: impl AsRef<Path>) -> Output {
    Command::new(env!("CARGO_BIN_EXE_explain"))
        .arg(path.as_ref())
        .output()
        .expect("the tool runs")
}

/// The messages of a sample.
fn messages(name: &str) -> Vec<u8> {
    let output = order(sample(name, "txt"));
    assert!(output.status.success());
    assert!(output.stderr.is_empty());
    output.stdout
}

fn complete(draft: &[u8]) -> Result<kieselbrot::Completed, Refusal> {
    let sheet = &mut [0; kieselbrot::SHEET_SIZE];
    kieselbrot::complete(draft, sheet, order::TERMS)
}

#[test]
fn the_sample_is_completed() {
    let completed = complete(&order::draft(&messages("order")));
    let completed = completed.expect("the sample can be completed");
    assert_eq!((completed.count, completed.ones), (1, 7));
}

#[test]
fn a_sample_of_both_parties() {
    let draft = order::draft(&messages("client"));
    let completed = complete(&draft).expect("the sample can be completed");
    assert_eq!((completed.count, completed.ones), (1, 6));
    // 101 and 108 are the client's, 102 is the adviser's though both gave it.
    let party = |slot: usize| draft[kieselbrot::DRAFT_SLOT_SIZE * slot + 4];
    assert_eq!([6, 7, 13].map(party), [1, 2, 1]);
}

#[test]
fn two_samples_can_not_be_completed() {
    let rule_28 = Broken {
        field: 104,
        rule: 28,
    };
    for (name, broken) in [("hopeless", Some(rule_28)), ("status-by-status", None)] {
        let draft = order::draft(&messages(name));
        assert_eq!(complete(&draft), Err(Refusal::NoFilling { count: 1056 }));
        assert_eq!(kieselbrot::pretest(&draft), Ok(broken));
    }
}

/// The samples, by name.
fn samples(ending: &str) -> Vec<String> {
    let files = fs::read_dir(sample("order", "txt").parent().expect("the samples"));
    let files = files.expect("the samples").filter_map(Result::ok);
    let paths = files.map(|file| file.path());
    let with = paths.filter(|path| path.extension().is_some_and(|found| found == ending));
    let mut names: Vec<String> = with
        .filter_map(|path| Some(path.file_stem()?.to_str()?.to_owned()))
        .collect();
    names.sort_unstable();
    names
}

/// The program's report, by the second implementation, and the words below it.
fn hold_report(name: &str, messages: &[u8], words: &str) {
    let stored = fs::read_to_string(sample(name, "report")).expect("a stored report");
    let report = order::windows1251::text(&reference::report(messages));
    assert_eq!(stored, format!("{report}\n{words}"), "{name}");
}

#[test]
fn the_reports_of_the_samples() {
    let orders = samples("txt");
    assert!(orders.len() >= 13, "{orders:?}");
    for name in orders {
        let output = explain_file(sample(&name, "txt"));
        assert!(output.status.success() && output.stderr.is_empty());
        let words = String::from_utf8(output.stdout).expect("UTF-8");
        hold_report(&name, &messages(&name), &words);
    }
    for name in samples("messages") {
        let messages = fs::read(sample(&name, "messages")).expect("a sample");
        hold_report(&name, &messages, &explain(&messages));
    }
}

/// Two arrangements of the same messages, and the payer that stands in each.
#[test]
fn two_payers() {
    let parts = |name: &str| {
        let gathered = messages(name);
        let gathered = kieselbrot::Gathered::new(&gathered);
        let mut parts: Vec<Vec<u8>> = gathered
            .postings
            .iter()
            .map(|posting| posting.bytes.to_vec())
            .collect();
        parts.sort_unstable();
        parts
    };
    assert_eq!(parts("two-payers"), parts("two-payers-turned"));
    assert_eq!(parts("two-payers").len(), 16);
    for (name, stands, other) in [
        ("two-payers", "7701569743", "7702070139"),
        ("two-payers-turned", "7702070139", "7701569743"),
    ] {
        let words = fs::read_to_string(sample(name, "report")).expect("a report");
        let clash =
            format!(": \"{stands}\" stands, \"{other}\" does not count. Ask which is right.");
        let (before, _) = words
            .split_once("This order can be completed: ")
            .expect("an answer");
        assert!(before.contains(&clash), "{words}");
    }
}

/// Messages alone have numbers and no lines.
#[test]
fn messages_have_no_lines() {
    let words = explain(&messages("late"));
    assert!(
        words.starts_with("Message 16, revision 1, adviser, "),
        "{words}"
    );
    assert!(!words.contains("line "), "{words}");
}

/// What is behind the bytes that budgetorder reads is left unread, and that is said.
#[test]
fn a_long_input() {
    let blank = b"\0\x06\x01\x16\0\0\0\x01";
    let full = blank.repeat(order::ORDER_MAX / blank.len());
    assert!(explained(&full).stderr.is_empty());
    let longer = [&full[..], b"\0"].concat();
    let one = explained(&longer);
    assert_eq!(one.stdout, explained(&full).stdout);
    let error = String::from_utf8(one.stderr).expect("UTF-8");
    let expected =
        "standard input: 1 byte is left unread, behind the 32768 that budgetorder reads\n";
    assert_eq!(error, expected);
    let more = explained(&[&full[..], &full].concat());
    assert!(more.status.success());
    assert!(more
        .stderr
        .starts_with(b"standard input: 32768 bytes are left unread, "));
}

#[test]
fn explain_names_wrong_lines() {
    let wrong = Try::new("explained", b"14 1 004525987\n16 1 x\n");
    let error = fails(explain_file(&wrong.0));
    assert!(error.contains(":2: \"16\" is no field; "), "{error}");
    let error = fails(explain_file("no such order.txt"));
    assert!(error.starts_with("no such order.txt: "), "{error}");
}

#[test]
fn a_wrong_line_gets_its_number_and_nothing_is_written() {
    let path = env::temp_dir().join(format!("kieselbrot-order-{}.txt", std::process::id()));
    fs::write(&path, "14 1 004525987\n\n16 1 x\n").expect("a file to try");
    let output = order(&path);
    let removed = fs::remove_file(&path);
    let error = String::from_utf8(output.stderr).expect("UTF-8");
    assert_eq!(output.status.code(), Some(1));
    assert!(output.stdout.is_empty());
    let expected = format!("{}:3: \"16\" is no field; ", path.display());
    assert!(error.starts_with(&expected), "{error}");
    assert!(removed.is_ok());
}

/// What `take` answers for these items.
fn take(path: impl AsRef<Path>, items: &[&str]) -> Output {
    Command::new(env!("CARGO_BIN_EXE_take"))
        .arg(path.as_ref())
        .args(items)
        .output()
        .expect("the tool runs")
}

/// A file to try, removed when it is dropped.
struct Try(PathBuf);

impl Try {
    fn new(name: &str, content: &[u8]) -> Self {
        let name = format!("kieselbrot-{name}-{}.txt", std::process::id());
        let path = env::temp_dir().join(name);
        fs::write(&path, content).expect("a file to try");
        Self(path)
    }
}

impl Drop for Try {
    fn drop(&mut self) {
        let _ = fs::remove_file(&self.0);
    }
}

/// A sample with "0" in 60 and 102, which is completed at count 97; these lines behind it.
fn unnamed(lines: &str) -> Vec<u8> {
    let order = fs::read_to_string(sample("order", "txt")).expect("a sample");
    (order + "60 9 0\n102 9 0\n" + lines).into_bytes()
}

#[test]
fn lines_are_taken_up() {
    let completed = |order: &[u8]| {
        let mut sheet = [0; kieselbrot::SHEET_SIZE];
        let draft = order::draft(&order::messages(order).expect("an order"));
        let answer = kieselbrot::complete(&draft, &mut sheet, order::TERMS);
        (answer.expect("it is completed").count, sheet)
    };
    // With and without an end of the last line; 101 and 106 were blanked with revision 2.
    for lines in ["", "22 1"] {
        let order = unnamed(lines);
        let (count, sheet) = completed(&order);
        assert_eq!(count, 97);
        let file = Try::new("take", &order);
        let output = take(&file.0, &["106", "101"]);
        assert!(output.status.success());
        assert!(output.stderr.is_empty());
        let end = if lines.is_empty() { "" } else { "\n" };
        let expected = format!("{end}101 3 04\n106 3 0\n");
        assert_eq!(String::from_utf8(output.stdout), Ok(expected.clone()));
        let taken = [&order[..], expected.as_bytes()].concat();
        assert_eq!(completed(&taken), (1, sheet));
        // What was taken up is given now.
        let file = Try::new("taken", &taken);
        let error = fails(take(&file.0, &["106"]));
        assert!(error.contains("Field 106 (basis) can't take up a value: it is given already."));
    }
}

/// What the client blanked is taken up in a line of the adviser's.
#[test]
fn a_line_of_the_adviser_is_taken_up() {
    let output = take(sample("client", "txt"), &["101", "22"]);
    assert!(output.status.success());
    assert_eq!(output.stdout, b"22 1 0\n101 3 01\n");
}

/// Nothing is written, and this is the error.
#[track_caller]
fn fails(output: Output) -> String {
    assert_eq!(output.status.code(), Some(1));
    assert!(output.stdout.is_empty());
    String::from_utf8(output.stderr).expect("UTF-8")
}

#[test]
fn what_is_not_taken_up_has_its_reason() {
    let file = Try::new("reasons", &unnamed(""));
    let error = fails(take(&file.0, &["101", "61"]));
    let expected = format!(
        "{}: Field 61 (recipient's INN) can't take up a value: nothing is ever proposed for \
         it.\n",
        file.0.display()
    );
    assert_eq!(error, expected);
    for item in ["16", "x", "", "+101", "101,106", "1010"] {
        let error = fails(take(&file.0, &["101", item]));
        let expected = format!("\"{item}\" is no field; the fields are 14 15 ");
        assert!(error.starts_with(&expected), "{error}");
    }
    let greatest = Try::new("greatest", &unnamed("101 4294967295"));
    let error = fails(take(&greatest.0, &["101"]));
    assert!(error.contains("its revision is the greatest"), "{error}");
    let error = fails(take(sample("hopeless", "txt"), &["101"]));
    assert!(error.contains("This order can't be completed: none of its 1,056 fillings"));
    let wrong = Try::new("wrong", b"14 1 004525987\n16 1 x\n");
    let error = fails(take(&wrong.0, &["101"]));
    assert!(error.contains(":2: \"16\" is no field; "), "{error}");
    let error = fails(take("no such order.txt", &["101"]));
    assert!(error.starts_with("no such order.txt: "), "{error}");
    assert_eq!(fails(take(&file.0, &[])), "usage: take FILE FIELD ..\n");
}

/// With the lines the order would be longer than the program reads.
#[test]
fn an_order_that_gets_too_long() {
    let order = unnamed("");
    let room = order::ORDER_MAX - order::messages(&order).expect("an order").len();
    // A blank of field 22 has eight bytes, the line to take up ten.
    let blanks = "22 1\n".repeat(room / 8);
    let file = Try::new("long", &unnamed(&blanks));
    let error = fails(take(&file.0, &["101"]));
    assert!(
        error.contains("with this line the order is longer"),
        "{error}"
    );
}

#[test]
fn a_missing_file_is_named() {
    let output = order("no such order.txt");
    assert_eq!(output.status.code(), Some(1));
    assert!(output.stdout.is_empty());
    assert!(output.stderr.starts_with(b"no such order.txt: "));
}

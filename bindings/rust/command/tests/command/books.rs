//! `book`, beside a plain way of doing it.

use std::collections::HashMap;
use std::fmt::Write;
use std::fs;
use std::process::Command;

use cases::Random;
use kieselbrot::{complete, post, Refusal};
use kieselbrot::{DRAFT_SIZE, FIELDS, MESSAGE_MAX, SHEET_SIZE};

use crate::json::{objects, one, Value};
use crate::running::{run, run_on, sample, Try};

/// What becomes of an order, and of its lines.
struct Plain {
    name: String,
    draft: [u8; DRAFT_SIZE],
    clashes: usize,
    wrong: Vec<usize>,
}

/// Goes through the lines one by one.
fn plain(book: &str) -> Vec<Plain> {
    let mut orders: Vec<Plain> = Vec::new();
    let mut places: HashMap<&str, usize> = HashMap::new();
    for (number, line) in (1..).zip(book.lines()) {
        if order::is_left_out(line) || line.starts_with(' ') {
            continue;
        }
        let (name, rest) = line.split_once(' ').unwrap_or((line, ""));
        let place = *places.entry(name).or_insert_with(|| {
            orders.push(Plain {
                name: name.to_owned(),
                draft: [0; DRAFT_SIZE],
                clashes: 0,
                wrong: Vec::new(),
            });
            orders.len() - 1
        });
        let order = &mut orders[place];
        let mut buffer = [0; MESSAGE_MAX];
        match order::message(rest, &mut buffer) {
            Err(_) => order.wrong.push(number),
            Ok(length) => match post(&mut order.draft, &buffer[..length]) {
                Ok(_) => (),
                Err(Refusal::Clash) => order.clashes += 1,
                Err(refusal) => panic!("{refusal}"),
            },
        }
    }
    orders
}

/// The row of an order without its cause.
fn row(order: &Plain) -> String {
    let clashes = order.clashes;
    if !order.wrong.is_empty() {
        return format!("{} unread - - {clashes}", order.name);
    }
    let answer = complete(&order.draft, &mut [0; SHEET_SIZE], order::TERMS);
    let (answer, count, set) = match answer {
        Ok(completed) => ("ok".to_owned(), completed.count.to_string(), completed.set),
        Err(Refusal::NoFilling { count }) => ("10".to_owned(), count.to_string(), 0),
        Err(refusal) => (refusal.number().to_string(), "-".to_owned(), 0),
    };
    let fields = FIELDS
        .iter()
        .enumerate()
        .filter(|(slot, _)| set >> slot & 1 == 1);
    let fields: Vec<String> = fields.map(|(_, field)| field.to_string()).collect();
    let filled = if set == 0 {
        "-".to_owned()
    } else {
        fields.join(",")
    };
    format!("{} {answer} {count} {filled} {clashes}", order.name)
}

/// A book of so many lines, of about so many orders, with wrong lines among them.
fn generated(random: &mut Random, lines: usize, orders: usize) -> String {
    let texts = cases::accepted(random);
    let mut book = String::new();
    for _ in 0..lines {
        let name = random.below(orders);
        match random.below(2_000) {
            0 => writeln!(book, "n{name} 16 1 x"),
            1 => writeln!(book, "n{name}"),
            2 => writeln!(book, " {name} 14 1 x"),
            3 => writeln!(book, "# n{name} 14 1 x"),
            4 => writeln!(book),
            5 => writeln!(book, "n{name} 14 1 {}", "7".repeat(26)),
            6 => writeln!(book, "n{name} client 108 1 АБ/я"),
            _ => {
                let field = random.pick(&FIELDS);
                let revision = 1 + random.below(4);
                let party = random.pick(&["", "", "", "client "]);
                let text = order::windows1251::text(&texts.get(field));
                let text = if random.percent(1) { "0" } else { &text };
                writeln!(book, "n{name} {party}{field} {revision} {text}")
            }
        }
        .expect("a string");
    }
    book
}

/// Every order's row is the one that the plain way gives, in the order of first appearance, and
/// the summary counts them.
#[test]
fn rows_are_those_of_the_plain_way() {
    let mut random = Random::new(11);
    let mut answers = HashMap::new();
    for (lines, orders) in [
        (0, 1),
        (1, 1),
        (300, 1),
        (3_000, 40),
        (60_000, 3_000),
        (200_000, 9_000),
    ] {
        let book = generated(&mut random, lines, orders);
        let expected = plain(&book);
        let file = Try::new(book.as_bytes());
        let ran = run(&["book", file.path()]);
        let (rows, summary) = ran
            .out
            .rsplit_once("\n\n")
            .unwrap_or(("", ran.out.trim_start()));
        let rows: Vec<&str> = rows.lines().collect();
        assert_eq!(rows.len(), expected.len());
        for (row, order) in rows.iter().zip(&expected) {
            let expected = self::row(order);
            let cause = row
                .strip_prefix(&expected)
                .unwrap_or_else(|| panic!("{row}\n{expected}"));
            let is_plain = expected.contains(" ok ") && order.clashes == 0;
            assert_eq!(cause == " -", is_plain, "{row}");
            *answers
                .entry(expected.split(' ').nth(1).map(str::to_owned))
                .or_insert(0) += 1;
        }
        let clashes: usize = expected.iter().map(|order| order.clashes).sum();
        assert!(
            summary.starts_with(&format!("{} order", expected.len())),
            "{summary}"
        );
        assert!(summary.contains(&format!(" {clashes} clash")), "{summary}");
        let wrong: usize = expected.iter().map(|order| order.wrong.len()).sum();
        let nameless = book.lines().filter(|line| line.starts_with(' ')).count();
        assert_eq!(ran.error.lines().count(), wrong + nameless);
        for order in &expected {
            for number in &order.wrong {
                let told = format!("{}:{number}: ", file.path());
                assert!(ran.error.contains(&told), "{told}");
            }
        }
        // The same as JSON.
        let json = run(&["book", "--json", file.path()]);
        assert_eq!(json.status, ran.status);
        let mut objects = objects(&json.out);
        let summary = objects.pop().expect("a summary");
        assert_eq!(
            summary.get("summary").get("orders").number(),
            expected.len() as i64
        );
        assert_eq!(
            summary.get("summary").get("wrong").number(),
            (wrong + nameless) as i64
        );
        assert_eq!(objects.len(), expected.len() + nameless);
        for (object, order) in objects.iter().zip(&expected) {
            assert_eq!(object.get("order").text(), order.name);
            assert_eq!(object.get("clashes").items().len(), order.clashes);
            let unread = object.get("unread").items();
            let numbers = unread.iter().map(|line| line.get("line").number() as usize);
            assert!(numbers.eq(order.wrong.iter().copied()));
            assert_eq!(
                object.get("answer") == &Value::Null,
                !order.wrong.is_empty()
            );
        }
    }
    for answer in ["ok", "8", "10", "unread"] {
        assert!(
            answers.contains_key(&Some(answer.to_owned())),
            "{answers:?}"
        );
    }
}

/// An order of a book is answered as `complete` answers its lines alone.
#[test]
fn orders_are_completed_as_alone() {
    let mut book = String::new();
    let mut alone: Vec<(String, String)> = Vec::new();
    for name in ["order", "hopeless", "status-by-status", "client"] {
        let order = fs::read_to_string(sample(&format!("{name}.txt"))).expect("a sample");
        alone.push((name.to_owned(), order));
    }
    let longest = alone.iter().map(|(_, order)| order.lines().count()).max();
    for number in 0..longest.unwrap_or(0) {
        for (name, order) in &alone {
            let line = order
                .lines()
                .nth(number)
                .filter(|line| !order::is_left_out(line));
            if let Some(line) = line {
                writeln!(book, "{name} {line}").expect("a string");
            }
        }
    }
    let ran = run_on(&["book", "-", "--json"], book.as_bytes());
    assert_eq!(ran.status, 1);
    let objects = objects(&ran.out);
    for (name, order) in &alone {
        let of_book = objects.iter().find(|object| {
            matches!(object, Value::Object(members) if members.get("order") == Some(&Value::Text(name.clone())))
        });
        let of_book = of_book.expect("its row");
        let object = one(&run_on(&["complete", "--json", "-"], order.as_bytes()).out);
        for member in ["answer", "count", "messages"] {
            assert_eq!(object.get(member), of_book.get(member));
        }
        if object.get("answer").number() != 0 {
            assert!(!object.get("causes").items().is_empty());
            for member in ["causes", "fewest"] {
                assert_eq!(object.get(member), of_book.get(member));
            }
        }
    }
}

#[test]
fn clashes_are_told_with_both_lines() {
    let book = "a 14 1 004525987\nb 14 1 1\na 14 1 004525988\na 15 1 40102810845370000004\n\
                a 17 1 03100643000000014800\na 60 1 7701569743\na 61 1 6730054024\n\
                a 102 1 770301001\na 103 1 772801001\na 104 1 18201061201010000510\n";
    let ran = run_on(&["book", "-"], book.as_bytes());
    assert_eq!(ran.status, 1);
    let rows: Vec<&str> = ran.out.lines().collect();
    assert_eq!(rows[0], "a ok 1 22,101,105,106,107,108,109 1 Lines 1 and 3 clash in field 14 \
                         (BIK), revision 1, adviser: \"004525987\" stands, \"004525988\" does not count. \
                         Ask which is right");
    assert!(rows[1].starts_with("b 8 - - 0 rule 1 in field 14 (BIK): "));
    assert_eq!(
        rows[3],
        "2 orders of 10 messages: 1 completed, 1 refused, 0 not read; 1 clash, 0 wrong lines"
    );
    let without_b = book.replace("b 14 1 1\n", "");
    assert_eq!(run_on(&["book", "-"], without_b.as_bytes()).status, 3);
    let without_clash = without_b.replace("a 14 1 004525988\n", "");
    assert_eq!(run_on(&["book", "-"], without_clash.as_bytes()).status, 0);
    // A wrong line: the order is not answered as completed.
    let wrong = without_clash + "a 14 2 004525987 \u{1F600}\n";
    let ran = run_on(&["book", "-"], wrong.as_bytes());
    assert_eq!(ran.status, 3);
    assert!(
        ran.out
            .starts_with("a unread - - 0 line 9 does not read: the text has "),
        "{}",
        ran.out
    );
    assert!(ran.error.starts_with("standard input:9: the text has "));
}

/// A date that is refused refuses every order.
#[test]
fn dates_of_a_book() {
    let ran = run_on(&["book", "-", "--date", "20230924"], b"a 14 1 1\n");
    assert!(
        ran.out.starts_with("a 12 - - 0 the dates are refused\n"),
        "{}",
        ran.out
    );
    assert_eq!(run_on(&["book", "-", "--date", "x"], b"").status, 2);
}

/// A million orders of one message.
#[test]
fn a_million_orders() {
    let mut book = String::new();
    for order in 0..1_000_000 {
        writeln!(book, "{order} 14 1 004525987").expect("a string");
    }
    let file = Try::new(book.as_bytes());
    let ran = run(&["book", file.path()]);
    assert_eq!(ran.status, 1);
    let mut rows = ran.out.lines();
    for order in 0..1_000_000 {
        let row = rows.next().expect("a row");
        assert!(
            row.starts_with(&format!("{order} 8 - - 0 rule 3 ")),
            "{row}"
        );
    }
    assert_eq!(rows.next(), Some(""));
}

/// The book that `times` makes has orders of 15 messages, of which an order in twenty can't be
/// completed and one in a hundred has a clash; the shares of the work on it are told.
#[test]
fn the_book_that_is_measured() {
    let file = Try::new(b"");
    let times = |arguments: &[&str]| {
        let program = Command::new(env!("CARGO_BIN_EXE_times"))
            .args(arguments)
            .output();
        let output = program.expect("it runs");
        assert!(output.status.success());
        String::from_utf8(output.stdout).expect("UTF-8")
    };
    times(&["--write", "1000", file.path()]);
    let ran = run(&["book", file.path()]);
    let summary = "\n\n1000 orders of 15000 messages: 950 completed, 50 refused, 0 not read; 10 \
                   clashes, 0 wrong lines\n";
    assert!(ran.out.ends_with(summary), "{}", ran.out);
    let shares = times(&["--inside", file.path()]);
    assert!(shares.starts_with("1000 orders, "), "{shares}");
    for name in [
        "reading",
        "splitting",
        "grouping",
        "posting",
        "completing",
        "merging",
        "writing",
    ] {
        assert!(shares.contains(&format!(" {name} ")), "{shares}");
    }
}

//! Messages of version 2, reports of both parties, and values taken up behind them.

use cases::{message, message_2, Dates, ADVISER, BLANKS, CLIENT, PARTIES};

use crate::dates::found;
use crate::example::Example;
use crate::messages::{read, with_version, LONG};
use crate::reports::{order, report, s_and};
use crate::take_up::{set_of, take_up_bytes};

/// All: messages, then reports, then values taken up.
pub fn all() -> Vec<Example> {
    [
        lengths(),
        parties(),
        parts(),
        two_wrong(),
        unknown_versions(),
        standings(),
        contests(),
        ends(),
        goes_on(),
        taken_up(),
    ]
    .concat()
}

/// A message of version 2 of the client's, to read.
fn read_2(name: impl AsRef<str>, bytes: &[u8]) -> Example {
    read(format!("version 2, {}", name.as_ref()), bytes)
}

/// The bytes behind an L of theirs.
fn with_length(body: &[u8]) -> Vec<u8> {
    [&(body.len() as u16).to_be_bytes(), body].concat()
}

fn lengths() -> Vec<Example> {
    let mut examples = vec![
        read_2("L 5", &with_length(&[2, CLIENT, 108, 0, 0])),
        read_2("L 6", &with_length(&[2, CLIENT, 108, 0, 0, 1])),
    ];
    for length in [7, 8, 31, 32, 33] {
        let bytes = message_2(CLIENT, 108, 1, &LONG[..length - 7]);
        examples.push(read_2(format!("L {length}"), &bytes));
    }
    let mut long = message_2(CLIENT, 108, 1, b"17");
    long[1] += 1;
    examples.push(read_2("L one more than the rest", &long));
    long[1] -= 2;
    examples.push(read_2("L one less than the rest", &long));
    examples
}

/// Every party byte.
fn parties() -> Vec<Example> {
    (0..=u8::MAX)
        .map(|party| {
            let bytes = message_2(party, 108, 1, b"17");
            read_2(format!("party {party}"), &bytes)
        })
        .collect()
}

/// Fields, revisions and texts behind the party.
fn parts() -> Vec<Example> {
    let mut examples = Vec::new();
    for field in [0, 1, 2, 13, 14, 16, 17, 101, 109, 110, 255] {
        let bytes = message_2(CLIENT, field, 1, b"0");
        examples.push(read_2(format!("field {field}"), &bytes));
    }
    for revision in [0, 1, 256, 0x0102_0304, u32::MAX] {
        let bytes = message_2(ADVISER, 102, revision, b"770301001");
        examples.push(read_2(format!("revision {revision}"), &bytes));
    }
    let any = message_2(CLIENT, 108, 2, b" \x00-\xFF");
    examples.push(read_2("text of any bytes", &any));
    examples
}

/// Two parts wrong at once.
fn two_wrong() -> Vec<Example> {
    let l_6 = |party, field| with_length(&[2, party, field, 0, 0, 0]);
    let cut = |bytes: Vec<u8>| bytes[..bytes.len() - 1].to_vec();
    vec![
        read_2("length and party", &cut(message_2(0, 108, 1, b"0"))),
        read_2("L 6 and party", &l_6(0, 108)),
        read_2("L 6 and field", &l_6(CLIENT, 16)),
        read_2("L 6, party and field", &l_6(3, 16)),
        read_2("party and field", &message_2(0, 16, 1, b"0")),
        read_2("party and revision", &message_2(3, 108, 0, b"0")),
        read_2("field and revision", &message_2(ADVISER, 16, 0, b"0")),
        read_2(
            "party, field and revision",
            &message_2(255, 16, 0, &LONG[..25]),
        ),
        read("L 32 and field", &message(16, 1, &LONG[..26])),
        read("L 32 and revision", &message(108, 0, &LONG[..26])),
    ]
}

/// An unknown version is a 3 with every L from 6 to 32, whatever stands behind it.
fn unknown_versions() -> Vec<Example> {
    let mut examples = Vec::new();
    for length in [5, 6, 7, 31, 32, 33] {
        let bytes = with_length(&[&[3][..], &vec![0; length - 1]].concat());
        examples.push(read(format!("version 3 with L {length}"), &bytes));
    }
    for version in [0, 3, 255] {
        let bytes = with_version(message_2(CLIENT, 108, 1, b"17"), version);
        let name = format!("version {version} in the form of version 2");
        examples.push(read(name, &bytes));
    }
    examples
}

/// A message of a party: the adviser's in version 1.
fn of(party: u8, field: u8, revision: u32, text: &[u8]) -> Vec<u8> {
    match party {
        ADVISER => message(field, revision, text),
        _ => message_2(party, field, revision, text),
    }
}

const fn name(party: u8) -> &'static str {
    match party {
        CLIENT => "client",
        _ => "adviser",
    }
}

/// Behind S: one party's revision 5 of 108, then the other's or its own with a lower, an
/// equal and a higher revision, with the same text and another.
fn standings() -> Vec<Example> {
    let mut examples = Vec::new();
    for first in PARTIES {
        for second in PARTIES {
            for (revision, word) in [(4, "lower"), (5, "equal"), (6, "higher")] {
                for (text, same) in [(b"17", "same"), (b"18", "other")] {
                    let list = [of(first, 108, 5, b"17"), of(second, 108, revision, text)];
                    let (first, second) = (name(first), name(second));
                    let name = format!("{first}, then {second}: {word}, {same} text");
                    examples.push(report(name, &s_and(&list)));
                }
            }
        }
    }
    examples
}

/// Equal revisions of both, several of them, in both orders; version 1 and version 2 of the
/// adviser are one party.
fn contests() -> Vec<Example> {
    let client = |text| message_2(CLIENT, 108, 5, text);
    let adviser = |text| message_2(ADVISER, 108, 5, text);
    let list = [
        client(b"17"),
        client(b"18"),
        adviser(b"18"),
        client(b"18"),
        adviser(b"17"),
        message(108, 5, b"18"),
        message(108, 5, b"17"),
        message_2(CLIENT, 108, 6, b""),
    ];
    let reversed: Vec<Vec<u8>> = list.iter().rev().cloned().collect();
    let whole: Vec<u8> = order(&found());
    let of_client: Vec<Vec<u8>> = cases::FIELDS
        .iter()
        .map(|&field| message_2(CLIENT, field, 1, &cases::Texts::s().get(field)))
        .collect();
    vec![
        report("equal revisions of both parties", &s_and(&list)),
        report(
            "equal revisions of both parties, reversed",
            &s_and(&reversed),
        ),
        report("an order of the client alone", &of_client.concat()),
        report(
            "an order of the client behind the adviser's",
            &[whole.clone(), of_client.concat()].concat(),
        ),
        report(
            "an order of the client ahead of the adviser's",
            &[of_client.concat(), whole].concat(),
        ),
    ]
}

/// Messages behind one that is refused.
fn behind(name: &str, refused: Vec<u8>) -> Example {
    let list = [
        refused,
        message_2(CLIENT, 101, 2, b"08"),
        message(102, 2, b"0"),
    ];
    report(name, &s_and(&list))
}

/// A 2 ends the reading, also one that is tested after 3.
fn ends() -> Vec<Example> {
    let l_32 = message(104, 2, &LONG[..26]);
    let l_6 = with_length(&[2, CLIENT, 101, 0, 0, 2]);
    let l_33 = message_2(CLIENT, 108, 1, &LONG[..26]);
    let cut = message_2(CLIENT, 108, 1, b"17")[..8].to_vec();
    vec![
        behind("version 1 with L 32, and messages behind it", l_32),
        behind("version 2 with L 6, and messages behind it", l_6),
        behind("version 2 with L 33, and messages behind it", l_33),
        report("version 2 cut in its revision", &s_and(&[cut])),
    ]
}

/// A 3 and a 13 do not.
fn goes_on() -> Vec<Example> {
    let unknown = |size: usize| with_length(&vec![3; size]);
    vec![
        behind("version 3 with L 6, and messages behind it", unknown(6)),
        behind("version 3 with L 32, and messages behind it", unknown(32)),
        behind(
            "an unknown party, and messages behind it",
            message_2(0, 101, 3, b"05"),
        ),
        behind(
            "an unknown party with L 32, and messages behind it",
            message_2(3, 101, 3, &LONG[..25]),
        ),
        behind(
            "version 2 with L 32, and messages behind it",
            message_2(CLIENT, 105, 0, &LONG[..25]),
        ),
    ]
}

/// A status that a party blanked with this revision, then the other's of the same.
fn taken_up() -> Vec<Example> {
    let mut examples = Vec::new();
    let mut add = |name: String, blanks: &[Vec<u8>], set| {
        let messages = [order(&found()), blanks.concat()].concat();
        examples.push(take_up_bytes(name, &messages, set, Dates::PROGRAM));
    };
    let status = set_of(&[101]);
    for revision in [1, 255, u32::MAX - 1, u32::MAX] {
        let name = format!("101 blanked by the client with revision {revision}");
        add(name, &[message_2(CLIENT, 101, revision, b"")], status);
    }
    for first in PARTIES {
        let both = [of(first, 101, 7, b""), of(3 - first, 101, 7, b"")];
        let name = format!(
            "101 blanked by both with revision 7, the {} first",
            name(first)
        );
        add(name, &both, status);
    }
    let given = message_2(CLIENT, 101, 1, b"08");
    add("101 given by the client".to_owned(), &[given], status);
    let all: Vec<Vec<u8>> = BLANKS.map(|field| message_2(CLIENT, field, 9, b"")).into();
    let whole = set_of(&BLANKS);
    add("all blanked by the client".to_owned(), &all, whole);
    examples
}

#[cfg(test)]
mod tests {
    use super::*;
    use crate::example::has_line;

    #[track_caller]
    fn reads(name: &str, line: &str) {
        has_line(&all(), &format!("message: {name}"), line);
    }

    #[test]
    fn messages_of_version_2() {
        reads("version 2, L 5", "2");
        reads("version 2, L 6", "2");
        reads("version 2, L 7", "ok 2 1 108 1 -");
        reads("version 2, L 8", "ok 2 1 108 1 A");
        reads("version 2, L 32", "ok 2 1 108 1 ABCDEFGHIJKLMNOPQRSTUVWXY");
        reads("version 2, L 33", "2");
        reads("version 2, L one more than the rest", "2");
        reads("version 2, L one less than the rest", "2");
        for party in 0..=u8::MAX {
            let line = match party {
                1 | 2 => format!("ok 2 {party} 108 1 17"),
                _ => "13".into(),
            };
            reads(&format!("version 2, party {party}"), &line);
        }
        reads("version 2, field 14", "ok 2 1 14 1 0");
        reads("version 2, field 16", "4");
        reads("version 2, revision 0", "5");
        let greatest = "ok 2 2 102 4294967295 770301001";
        reads("version 2, revision 4294967295", greatest);
    }

    #[test]
    fn the_order_of_tests() {
        for (name, number) in [
            ("version 2, length and party", "2"),
            ("version 2, L 6 and party", "2"),
            ("version 2, L 6 and field", "2"),
            ("version 2, L 6, party and field", "2"),
            ("version 2, party and field", "13"),
            ("version 2, party and revision", "13"),
            ("version 2, field and revision", "4"),
            ("version 2, party, field and revision", "13"),
            ("L 32 and field", "2"),
            ("L 32 and revision", "2"),
            ("version 3 with L 5", "2"),
            ("version 3 with L 6", "3"),
            ("version 3 with L 7", "3"),
            ("version 3 with L 31", "3"),
            ("version 3 with L 32", "3"),
            ("version 3 with L 33", "2"),
            ("version 0 in the form of version 2", "3"),
        ] {
            reads(name, number);
        }
    }

    /// The lines of a report behind those of S, up to its end.
    fn behind_s(name: &str) -> Vec<String> {
        let name = format!("report: {name}");
        let mut examples = all().into_iter();
        let example = examples.find(|example| example.name == name).expect("it");
        let text: String = example.output().iter().copied().map(char::from).collect();
        let lines = text.lines().skip(15);
        let answers = lines.take_while(|line| !line.starts_with("end"));
        answers
            .filter_map(|line| Some(line.split_once(' ')?.1.to_owned()))
            .collect()
    }

    #[test]
    fn what_stands() {
        for (name, answer) in [
            ("client, then client: lower, same text", "older"),
            ("client, then client: equal, same text", "same"),
            ("client, then client: equal, other text", "6"),
            ("client, then client: higher, other text", "newer"),
            ("client, then adviser: lower, other text", "older"),
            ("client, then adviser: equal, same text", "newer"),
            ("client, then adviser: equal, other text", "newer"),
            ("client, then adviser: higher, same text", "newer"),
            ("adviser, then client: lower, same text", "older"),
            ("adviser, then client: equal, same text", "older"),
            ("adviser, then client: equal, other text", "older"),
            ("adviser, then client: higher, other text", "newer"),
            ("adviser, then adviser: equal, same text", "same"),
            ("adviser, then adviser: equal, other text", "6"),
        ] {
            assert_eq!(behind_s(name), ["newer", answer], "{name}");
        }
        let answers = ["newer", "6", "newer", "older", "6", "same", "6", "newer"];
        assert_eq!(behind_s("equal revisions of both parties"), answers);
        let answers = [
            "newer", "older", "older", "older", "older", "older", "older", "older",
        ];
        assert_eq!(
            behind_s("equal revisions of both parties, reversed"),
            answers
        );
    }

    #[test]
    fn what_ends_the_reading() {
        for name in [
            "version 1 with L 32, and messages behind it",
            "version 2 with L 6, and messages behind it",
            "version 2 with L 33, and messages behind it",
            "version 2 cut in its revision",
        ] {
            assert_eq!(behind_s(name), ["2"], "{name}");
        }
        for (name, number) in [
            ("version 3 with L 6, and messages behind it", "3"),
            ("version 3 with L 32, and messages behind it", "3"),
            ("an unknown party, and messages behind it", "13"),
            ("an unknown party with L 32, and messages behind it", "13"),
            ("version 2 with L 32, and messages behind it", "5"),
        ] {
            assert_eq!(behind_s(name), [number, "newer", "newer"], "{name}");
        }
    }

    #[test]
    fn values_taken_up() {
        let is = |name: &str, line: &str| has_line(&all(), &format!("take up: {name}"), line);
        for revision in [1, 255, u32::MAX - 1] {
            let name = format!("101 blanked by the client with revision {revision}");
            is(&name, "ok ok 1 31752 6 04");
        }
        is(
            "101 blanked by the client with revision 4294967295",
            "20 101",
        );
        for first in ["client", "adviser"] {
            let name = format!("101 blanked by both with revision 7, the {first} first");
            is(&name, "ok ok 1 31752 6 04");
        }
        is("101 given by the client", "20 101");
        is("all blanked by the client", "ok ok 1 0 0 04");
    }
}

//! Inputs of the program `budgetorder`.

use cases::{message, Texts, BASES, BLANKS, FIELDS};

use crate::example::{Example, Kind};

/// All inputs: short ones, document 01's completions, then by what they show.
pub fn all() -> Vec<Example> {
    [
        short(),
        completions(),
        pensions(),
        broken(),
        ordinary(),
        postings(),
        stops(),
        refusals(),
        customs(),
        corrections(),
    ]
    .concat()
}

pub fn report(name: impl AsRef<str>, input: &[u8]) -> Example {
    Example::new(Kind::Report, format!("report: {}", name.as_ref()), input)
}

/// The messages of an order, revision 1, in slot order; none for a blank.
pub fn order(texts: &Texts) -> Vec<u8> {
    let given = FIELDS.map(|field| (field, texts.get(field)));
    given
        .iter()
        .filter(|(_, text)| !text.is_empty())
        .flat_map(|(field, text)| message(*field, 1, text))
        .collect()
}

/// The order S and further messages behind it.
pub fn s_and(messages: &[Vec<u8>]) -> Vec<u8> {
    [order(&Texts::s()), messages.concat()].concat()
}

/// A message of version 3, which is refused with 3.
fn other_version() -> Vec<u8> {
    let mut bytes = message(101, 2, b"08");
    bytes[2] = 3;
    bytes
}

/// Refused with 2, and no more than its own bytes: L is 5.
pub const L_5: [u8; 7] = [0, 5, 1, 101, 0, 0, 2];

fn short() -> Vec<Example> {
    let hundred = message(105, 1, b"0").repeat(100);
    vec![
        report("empty input", b""),
        report("1 byte", &[0]),
        report("worked example", &message(14, 1, b"0045")),
        report("S", &order(&Texts::s())),
        report("numbers of one, two and three digits", &hundred),
    ]
}

/// An account that wants a code.
pub const INSTITUTION: &[u8] = b"03212643000000014800";

fn completions() -> Vec<Example> {
    let blank = Texts::s().without(&BLANKS);
    let zeros = |texts: Texts| order(&texts.with(60, b"0").with(102, b"0"));
    let instead = blank.with(17, INSTITUTION);
    vec![
        report("blank 22, 101, 105 to 109: count 1", &order(&blank)),
        report("also 60 0, 102 0: status 04, count 97", &zeros(blank)),
        report(
            "instead 17 03212643000000014800: 10, count 1,056",
            &order(&instead),
        ),
        report(
            "17 03212643000000014800, also 60 0, 102 0: 10, count 1,056",
            &zeros(instead),
        ),
    ]
}

/// a pension number that rule 35 refuses, and one that it keeps, with 109 blank.
fn pensions() -> Vec<Example> {
    let pension = |name, number: &[u8]| {
        let texts = Texts::s().with(101, b"24").with(60, b"0").with(102, b"0");
        report(name, &order(&texts.with(108, number).without(&[109])))
    };
    vec![
        pension(
            "108 14;12345678900, 109 blank: 10, count 2",
            b"14;12345678900",
        ),
        pension("108 14;12345678964, 109 blank: count 1", b"14;12345678964"),
    ]
}

/// Drafts that rules 1 to 3 refuse.
fn broken() -> Vec<Example> {
    let changed = |name, field, text: &[u8]| report(name, &order(&Texts::s().with(field, text)));
    let last_two = Texts::s().with(15, b"1").with(17, b"1");
    vec![
        changed("14 of eight digits: rule 1", 14, b"00452598"),
        changed("14 of ten digits: rule 1", 14, b"0045259870"),
        changed("14 never given: rule 1", 14, b""),
        changed("15 of 19 digits: rule 2", 15, b"4010281084537000000"),
        changed("15 with a letter: rule 2", 15, b"4010281084537000000O"),
        changed("17 of 21 digits: rule 3", 17, b"031006430000000148000"),
        changed("17 with a space: rule 3", 17, b"0310064300000001480 "),
        changed("17 never given: rule 3", 17, b""),
        report("15 and 17 broken: rule 2", &order(&last_two)),
    ]
}

fn ordinary() -> Vec<Example> {
    let blank = Texts::s().without(&[15]);
    vec![
        report("ordinary with a status: 9", &order(&blank)),
        report(
            "ordinary without a status: 9",
            &order(&blank.without(&[101])),
        ),
        report(
            "ordinary, its 17 another account: 9",
            &order(&Texts::s().with(17, b"40702643000000014800")),
        ),
    ]
}

/// Every answer of posting, the 2 last.
fn postings() -> Vec<Example> {
    let list = [
        message(101, 2, b"08"),
        message(101, 2, b"08"),
        message(101, 1, b"08"),
        message(101, 1, b"05"),
        other_version(),
        message(16, 3, b"08"),
        message(101, 0, b"08"),
        message(101, 2, b"05"),
        message(101, 3, b"01"),
        L_5.to_vec(),
    ];
    vec![
        report("every answer of posting", &list.concat()),
        report("every answer of posting, behind S", &s_and(&list)),
    ]
}

/// A message cut at the end, and what stands behind a 2.
fn stops() -> Vec<Example> {
    let cut = |name: &str, size: usize| {
        let last = message(101, 2, b"08")[..size].to_vec();
        report(name, &s_and(&[last]))
    };
    let behind = |name, refused: Vec<u8>| {
        let list = [refused, message(101, 2, b"08"), message(102, 2, b"0")];
        report(name, &s_and(&list))
    };
    let l_32 = message(104, 2, &[b'1'; 26]);
    vec![
        cut("a message cut to one byte", 1),
        cut("a message cut to its L", 2),
        cut("a message cut in its revision", 7),
        cut("a message cut in its text", 9),
        behind("L 5, and messages behind it", L_5.to_vec()),
        behind("L 32, and messages behind it", l_32),
        behind("L 0, and messages behind it", vec![0, 0]),
    ]
}

/// Refusals after which reading goes on.
fn refusals() -> Vec<Example> {
    let unread = [
        other_version(),
        message(16, 2, b"08"),
        message(101, 0, b"08"),
        message(101, 1, b"08"),
    ];
    let twice = [&unread[..], &unread, &[message(101, 2, b"08")]].concat();
    vec![
        report("refusals and a newer one behind them", &s_and(&twice)),
        report("refusals alone", &unread[..3].concat()),
    ]
}

/// Orders with texts that aren't digits, or shown as `-`.
fn customs() -> Vec<Example> {
    let class_b = Texts::s()
        .with(14, b"044525000")
        .with(15, b"")
        .with(17, b"40503810000004000000");
    let customs = Texts::s().with(101, b"06").with(107, b"10000000");
    let dated = customs.with(109, b"29.02.2024");
    let mut examples = vec![
        report("class B, 15 blank", &order(&class_b)),
        report(
            "Cyrillic letters in 108",
            &order(&dated.with(108, b"\xC0\xDF/17\xE0\xFF")),
        ),
    ];
    for (number, pair) in BASES[2..].iter().enumerate() {
        let name = format!("letter pair {} in 106", number + 1);
        let texts = dated.with(106, pair).with(108, b"1");
        examples.push(report(name, &order(&texts)));
    }
    let filled = customs.with(106, b"\xD2\xC4").without(&[108]);
    let name = "letter pair in 106, 108 filled: count 2";
    examples.push(report(name, &order(&filled)));
    examples
}

/// Fields taken back, late arrivals, and what no completion fills.
fn corrections() -> Vec<Example> {
    let blanked = |name, field: u8| report(name, &s_and(&[message(field, 2, b"")]));
    let late = [message(101, 3, b"08"), message(101, 2, b"05")];
    let clash = [message(101, 3, b"08"), message(101, 3, b"05")];
    let given_late = [message(102, 2, b""), message(102, 1, b"770301001")];
    let status = [message(101, 2, b"08"), message(101, 3, b"")];
    let first = [message(102, u32::MAX, b"0"), message(102, 1, b"770301001")];
    let reversed: Vec<Vec<u8>> = FIELDS
        .iter()
        .rev()
        .map(|&field| message(field, 1, &Texts::s().get(field)))
        .collect();
    vec![
        report("a status given, then blanked", &s_and(&status)),
        report("a blanked field stays blank", &s_and(&given_late)),
        blanked("104 blanked: 10, count 1", 104),
        blanked("15 blanked: 9", 15),
        blanked("17 blanked: rule 3", 17),
        report("the last arrival does not win", &s_and(&late)),
        report("the first of an equal revision stays", &s_and(&clash)),
        report("the highest revision", &s_and(&first)),
        report("S from its last field to its first", &reversed.concat()),
        report(
            "a blank 61 is not filled",
            &order(&Texts::s().without(&[61])),
        ),
        blanked("a blanked 61 is not filled", 61),
        report(
            "a blank 103 is not filled",
            &order(&Texts::s().without(&[103])),
        ),
    ]
}

#[cfg(test)]
mod tests {
    use super::*;

    /// The lines of sheet S.
    const S: &str = "\
14 004525987
15 40102810845370000004
17 03100643000000014800
22 0
60 7701569743
61 6730054024
101 01
102 770301001
103 772801001
104 18201061201010000510
105 0
106 0
107 0
108 0
109 0
";

    /// Sheet S with other lines.
    fn s_with(changes: &[(&str, &[u8])]) -> Vec<u8> {
        let changed = |line: &str| {
            let change = changes.iter().find(|(old, _)| *old == line);
            change.map_or(line.as_bytes().to_vec(), |(_, new)| new.to_vec())
        };
        S.lines()
            .flat_map(|line| [changed(line), b"\n".to_vec()].concat())
            .collect()
    }

    /// So many first messages, all newer.
    fn newer(count: usize) -> String {
        (1..=count)
            .map(|number| format!("{number} newer\n"))
            .collect()
    }

    /// The report with this name is these parts, one behind the other.
    #[track_caller]
    fn is(name: &str, parts: &[&[u8]]) {
        let name = format!("report: {name}");
        let mut examples = all().into_iter();
        let example = examples.find(|example| example.name == name);
        let output = example.expect("a report of this name").output();
        let shown = |bytes: &[u8]| bytes.escape_ascii().to_string();
        assert_eq!(shown(&output), shown(&parts.concat()), "{name}");
    }

    /// So many messages are newer, then comes this end.
    #[track_caller]
    fn ends(name: &str, count: usize, end: &str) {
        is(name, &[newer(count).as_bytes(), end.as_bytes(), b"\n"]);
    }

    /// So many messages are newer, then comes this text and S with other lines.
    #[track_caller]
    fn shows(name: &str, count: usize, text: &str, changes: &[(&str, &[u8])]) {
        let messages = newer(count);
        is(
            name,
            &[messages.as_bytes(), text.as_bytes(), &s_with(changes)],
        );
    }

    #[test]
    fn short_inputs() {
        is("empty input", &[b"end 8 14 1\n"]);
        is("1 byte", &[b"1 2\nend 8 14 1\n"]);
        is("worked example", &[b"1 newer\nend 8 14 1\n"]);
        shows("S", 15, "end ok 1\n", &[]);
        let same: String = (2..=100).map(|n| format!("{n} same\n")).collect();
        is(
            "numbers of one, two and three digits",
            &[b"1 newer\n", same.as_bytes(), b"end 8 14 1\n"],
        );
    }

    #[test]
    fn completion_examples_of_document_01() {
        shows("blank 22, 101, 105 to 109: count 1", 8, "end ok 1\n", &[]);
        shows(
            "also 60 0, 102 0: status 04, count 97",
            8,
            "end ok 97\n",
            &[
                ("60 7701569743", b"60 0"),
                ("101 01", b"101 04"),
                ("102 770301001", b"102 0"),
            ],
        );
        ends(
            "instead 17 03212643000000014800: 10, count 1,056",
            8,
            "end 10 1056",
        );
        ends(
            "17 03212643000000014800, also 60 0, 102 0: 10, count 1,056",
            8,
            "end 10 1056",
        );
    }

    #[test]
    fn pension_numbers() {
        ends("108 14;12345678900, 109 blank: 10, count 2", 14, "end 10 2");
        shows(
            "108 14;12345678964, 109 blank: count 1",
            14,
            "end ok 1\n",
            &[
                ("60 7701569743", b"60 0"),
                ("101 01", b"101 24"),
                ("102 770301001", b"102 0"),
                ("108 0", b"108 14;12345678964"),
            ],
        );
    }

    #[test]
    fn rules_1_to_3() {
        ends("14 of eight digits: rule 1", 15, "end 8 14 1");
        ends("14 of ten digits: rule 1", 15, "end 8 14 1");
        ends("14 never given: rule 1", 14, "end 8 14 1");
        ends("15 of 19 digits: rule 2", 15, "end 8 15 2");
        ends("15 with a letter: rule 2", 15, "end 8 15 2");
        ends("17 of 21 digits: rule 3", 15, "end 8 17 3");
        ends("17 with a space: rule 3", 15, "end 8 17 3");
        ends("17 never given: rule 3", 14, "end 8 17 3");
        ends("15 and 17 broken: rule 2", 15, "end 8 15 2");
    }

    #[test]
    fn ordinary_orders() {
        ends("ordinary with a status: 9", 14, "end 9");
        ends("ordinary without a status: 9", 13, "end 9");
        ends("ordinary, its 17 another account: 9", 15, "end 9");
    }

    #[test]
    fn every_answer_of_posting() {
        is(
            "every answer of posting",
            &[
                b"1 newer\n2 same\n3 older\n4 older\n5 3\n6 4\n7 5\n8 6\n9 newer\n10 2\n\
                end 8 14 1\n",
            ],
        );
        shows(
            "every answer of posting, behind S",
            15,
            "16 newer\n17 same\n18 older\n19 older\n20 3\n21 4\n22 5\n23 6\n24 newer\n25 2\n\
             end ok 1\n",
            &[],
        );
    }

    #[test]
    fn reading_stops_after_a_2() {
        for name in [
            "a message cut to one byte",
            "a message cut to its L",
            "a message cut in its revision",
            "a message cut in its text",
            "L 5, and messages behind it",
            "L 32, and messages behind it",
            "L 0, and messages behind it",
        ] {
            shows(name, 15, "16 2\nend ok 1\n", &[]);
        }
    }

    #[test]
    fn reading_goes_on_after_other_refusals() {
        shows(
            "refusals and a newer one behind them",
            15,
            "16 3\n17 4\n18 5\n19 6\n20 3\n21 4\n22 5\n23 6\n24 newer\nend ok 1\n",
            &[("101 01", b"101 08")],
        );
        is("refusals alone", &[b"1 3\n2 4\n3 5\nend 8 14 1\n"]);
    }

    #[test]
    fn a_blank_15_is_shown() {
        shows(
            "class B, 15 blank",
            14,
            "end ok 1\n",
            &[
                ("14 004525987", b"14 044525000"),
                ("15 40102810845370000004", b"15 -"),
                ("17 03100643000000014800", b"17 40503810000004000000"),
            ],
        );
    }

    const STATUS: (&str, &[u8]) = ("101 01", b"101 06");
    const OFFICE: (&str, &[u8]) = ("107 0", b"107 10000000");
    const DATE: (&str, &[u8]) = ("109 0", b"109 29.02.2024");

    #[test]
    fn letters_as_they_are() {
        let document: (&str, &[u8]) = ("108 0", b"108 \xC0\xDF/17\xE0\xFF");
        shows(
            "Cyrillic letters in 108",
            15,
            "end ok 1\n",
            &[STATUS, OFFICE, document, DATE],
        );
        let pairs: [&[u8]; 10] = [
            b"106 \xD3\xC2",
            b"106 \xC8\xCB",
            b"106 \xCF\xC1",
            b"106 \xD2\xC3",
            b"106 \xD2\xC1",
            b"106 \xD2\xC4",
            b"106 \xCF\xC2",
            b"106 \xC8\xCD",
            b"106 \xCF\xCA",
            b"106 \xCA\xDD",
        ];
        for (number, pair) in (1..).zip(pairs) {
            shows(
                &format!("letter pair {number} in 106"),
                15,
                "end ok 1\n",
                &[STATUS, ("106 0", pair), OFFICE, ("108 0", b"108 1"), DATE],
            );
        }
        shows(
            "letter pair in 106, 108 filled: count 2",
            14,
            "end ok 2\n",
            &[
                STATUS,
                ("106 0", b"106 \xD2\xC4"),
                OFFICE,
                ("108 0", b"108 00"),
            ],
        );
    }

    #[test]
    fn blanked_fields() {
        let name = "a status given, then blanked";
        shows(name, 17, "end ok 1\n", &[]);
        shows(
            "a blanked field stays blank",
            16,
            "17 older\nend ok 1\n",
            &[("102 770301001", b"102 0")],
        );
        ends("104 blanked: 10, count 1", 16, "end 10 1");
        ends("15 blanked: 9", 16, "end 9");
        ends("17 blanked: rule 3", 16, "end 8 17 3");
    }

    #[test]
    fn the_highest_revision_wins_and_the_first_that_has_it() {
        let status: (&str, &[u8]) = ("101 01", b"101 08");
        let late = "17 older\nend ok 1\n";
        shows("the last arrival does not win", 16, late, &[status]);
        let clash = "17 6\nend ok 1\n";
        shows("the first of an equal revision stays", 16, clash, &[status]);
        let kpp: (&str, &[u8]) = ("102 770301001", b"102 0");
        shows("the highest revision", 16, late, &[kpp]);
        let reversed = "S from its last field to its first";
        shows(reversed, 15, "end ok 1\n", &[]);
    }

    #[test]
    fn fields_without_a_list_are_not_filled() {
        ends("a blank 61 is not filled", 14, "end 10 1");
        ends("a blanked 61 is not filled", 16, "end 10 1");
        ends("a blank 103 is not filled", 14, "end 10 1");
    }
}

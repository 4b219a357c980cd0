//! MT103 lines, written and read.

use cases::{ended_by, lines_of, trailing, Dates, Texts, ALL_STATUSES, CLASS_A};

use crate::example::{with_dates, Example, Kind};

/// All: lines of each length, each refusal of writing and which comes first, statuses about
/// their dates; blocks that read, and blocks near them.
pub fn all() -> Vec<Example> {
    [
        written(),
        not_written(),
        dated(),
        taken(),
        not_taken(),
        by_lines(),
    ]
    .concat()
}

fn write_at(name: &str, texts: &Texts, dates: Dates) -> Example {
    let bytes = with_dates(dates, &texts.sheet());
    Example::new(Kind::WriteLinesAt, format!("write lines: {name}"), &bytes)
}

fn write(name: &str, texts: &Texts) -> Example {
    write_at(name, texts, Dates::PROGRAM)
}

fn write_short(name: &str, texts: &Texts, dates: Dates) -> Example {
    let bytes = with_dates(dates, &texts.sheet());
    let name = format!("write lines, no room: {name}");
    Example::new(Kind::WriteShortAt, name, &bytes)
}

fn read(name: impl AsRef<str>, block: &[u8]) -> Example {
    let name = format!("read lines: {}", name.as_ref());
    Example::new(Kind::ReadLines, name, block)
}

/// To an account that wants a code, with this one.
fn enforcement(code: &[u8]) -> Texts {
    let account = Texts::s().with(17, b"03212643000000014800");
    account.with(101, b"08").with(22, code)
}

fn class_b() -> Texts {
    let bank = Texts::s().with(14, b"044525000").with(15, b"");
    bank.with(17, b"40503810000004000000")
}

fn class_o() -> Texts {
    Texts::s().without(&[15, 101])
}

/// Codes of each length.
const CODES: [(&str, &[u8]); 3] = [
    ("four digits", b"1234"),
    ("20 digits", &[b'1'; 20]),
    ("25 digits", &[b'1'; 25]),
];

/// Lines of each length, with room and without.
fn written() -> Vec<Example> {
    let mut orders = vec![("S", Texts::s())];
    orders.extend(CODES.map(|(name, code)| (name, enforcement(code))));
    let letters = Texts::s().with(103, b"7728AB001");
    orders.push(("a KPP with letters", letters));
    let with_room = orders.iter().map(|(name, order)| write(name, order));
    let short = orders
        .iter()
        .map(|(name, order)| write_short(name, order, Dates::PROGRAM));
    with_room.chain(short).collect()
}

/// Each refusal, with room and without, at dates that 12 refuses and at others.
fn not_written() -> Vec<Example> {
    let orders = [
        ("61 0", Texts::s().with(61, b"0")),
        ("101 31", Texts::s().with(101, b"31")),
        ("101 02", Texts::s().with(101, b"02")),
        ("108 blank", Texts::s().with(108, b"")),
        ("class B", class_b()),
        ("class B, 61 0", class_b().with(61, b"0")),
        ("class O", class_o()),
        ("class O, 101 01", class_o().with(101, b"01")),
        ("blank", Texts::BLANK),
        ("a text of 26 bytes", Texts::s().with(14, &[b'0'; 26])),
    ];
    let early = Dates::given(20230924);
    let mut examples = Vec::new();
    for (name, texts) in orders {
        examples.push(write(name, &texts));
        examples.push(write_short(name, &texts, Dates::PROGRAM));
        let name = format!("{name} at 20230924");
        examples.push(write_short(&name, &texts, early));
    }
    examples.push(write_short("S at 20230924", &Texts::s(), early));
    examples
}

/// 02, 32 and 33 on the day of their entry, and a day off.
fn dated() -> Vec<Example> {
    let code = enforcement(&[b'1'; 20]);
    let customs = Texts::s().with(107, b"10000000");
    let orders = [
        (Texts::s().with(101, b"02"), [20231231, 20240101]),
        (customs.with(101, b"32"), [20231001, 20230930]),
        (code.with(101, b"33"), [20240101, 20231231]),
    ];
    let example = |texts: Texts, date| {
        let status = texts.get(101);
        let name = format!("{} at {date}", status.escape_ascii());
        write_at(&name, &texts, Dates::given(date))
    };
    orders
        .into_iter()
        .flat_map(|(texts, dates)| dates.map(|date| example(texts, date)))
        .collect()
}

/// Every status and every account of class A, whether they go together or not, codes, and a
/// KPP with letters.
fn taken() -> Vec<Example> {
    let s = Texts::s();
    let mut examples = vec![read("S", &lines_of(&s))];
    for status in ALL_STATUSES {
        let block = lines_of(&s.with(101, status.as_bytes()));
        examples.push(read(format!("status {status}"), &block));
    }
    for begin in CLASS_A {
        let account = format!("{begin}643000000014800");
        let block = lines_of(&s.with(17, account.as_bytes()));
        examples.push(read(format!("account {begin}"), &block));
    }
    for (name, code) in CODES {
        examples.push(read(name, &lines_of(&enforcement(code))));
    }
    let letters = lines_of(&s.with(103, b"7728AB001"));
    examples.push(read("a KPP with letters", &letters));
    examples
}

/// Texts that a rule refuses, or that make no class A.
const OTHER_TEXTS: [(u8, &[u8]); 21] = [
    (14, b"00452598"),
    (14, b"00452598x"),
    (15, b""),
    (15, b"40103810845370000004"),
    (15, b"4010281084537000000x"),
    (17, b"03100810000000014800"),
    (17, b"03254643000000014800"),
    (17, b"0310064300000001480"),
    (22, b""),
    (22, b"1234"),
    (22, b"00"),
    (22, b"00000000000000000000"),
    (22, b"0000000000000000000000000"),
    (61, b"6730054025"),
    (61, b"0"),
    (101, b"09"),
    (101, b"1"),
    (101, b""),
    (103, b"0"),
    (103, b"7728ab001"),
    (103, b"002801001"),
];

/// One text changed; class B and O; fixed strings changed.
fn not_taken() -> Vec<Example> {
    let mut examples = Vec::new();
    for (field, text) in OTHER_TEXTS {
        let shown = text.escape_ascii();
        let block = lines_of(&Texts::s().with(field, text));
        examples.push(read(format!("{field} {shown}."), &block));
    }
    examples.push(read("class B", &lines_of(&class_b())));
    examples.push(read("class O", &lines_of(&class_o())));
    let b = lines_of(&Texts::s());
    for (place, byte) in [
        (0, b';'),
        (5, b's'),
        (8, b' '),
        (17, b'u'),
        (27, b','),
        (48, b'\r'),
        (53, b':'),
        (75, b'i'),
        (88, b'/'),
        (110, b' '),
        (112, b'\r'),
    ] {
        let mut block = b.clone();
        block[place] = byte;
        examples.push(read(format!("another byte at {place}"), &block));
    }
    examples
}

/// Lines missing, doubled and moved, otherwise ended, and with something behind them.
fn by_lines() -> Vec<Example> {
    let b = lines_of(&Texts::s());
    let lines: Vec<&[u8]> = b.split_inclusive(|&byte| byte == b'\n').collect();
    let mut examples = Vec::new();
    for place in 0..5 {
        let number = place + 1;
        let mut other = lines.clone();
        let line = other.remove(place);
        let name = format!("without line {number}");
        examples.push(read(name, &other.concat()));
        other.insert((place + 1) % 5, line);
        examples.push(read(format!("line {number} moved"), &other.concat()));
        let mut doubled = lines.clone();
        doubled.insert(place, line);
        examples.push(read(format!("line {number} doubled"), &doubled.concat()));
    }
    examples.extend([
        read("nothing", b""),
        read("without the last line feed", &b[..112]),
        read("one more line feed", &trailing(&b, b"\n")),
        read("a line feed ahead", &trailing(b"\n", &b)),
        read("CR LF", &ended_by(&b, b"\r\n")),
        read("CR", &ended_by(&b, b"\r")),
        read("twice", &b.repeat(2)),
        read("a zero byte behind", &trailing(&b, b"\0")),
    ]);
    examples
}

#[cfg(test)]
mod tests {
    use super::*;
    use crate::example::has_line;

    const B: &str = ":26T:S01
:57D://RU004525987.40102810845370000004
:59:/03100643000000014800
INN6730054024.KPP772801001
:72:/UIP/0
";

    #[track_caller]
    fn is(name: &str, line: &str) {
        has_line(&all(), name, line);
    }

    #[test]
    fn lines_of_each_length() {
        is("write lines: S", &format!("ok 113\n{B}"));
        for ((name, code), length) in CODES.into_iter().zip([116, 132, 137]) {
            let code = String::from_utf8_lossy(code);
            let lines = B
                .replace("S01", "S08")
                .replace("03100", "03212")
                .replace("UIP/0", &format!("UIP/{code}"));
            let name = format!("write lines: {name}");
            is(&name, &format!("ok {length}\n{lines}"));
        }
    }

    #[test]
    fn refusals_of_writing() {
        for (name, line) in [
            ("61 0", "8 61 9"),
            ("101 31", "8 17 20"),
            ("101 02", "8 101 10"),
            ("108 blank", "8 108 6"),
            ("class B", "11"),
            ("class B, 61 0", "8 61 9"),
            ("class O", "11"),
            ("class O, 101 01", "8 101 4"),
            ("blank", "8 14 1"),
            ("a text of 26 bytes", "1"),
        ] {
            is(&format!("write lines: {name}"), line);
            is(&format!("write lines, no room: {name}"), line);
            let early = if line == "1" { "1" } else { "12" };
            is(&format!("write lines, no room: {name} at 20230924"), early);
        }
        for name in ["S", "four digits", "20 digits", "25 digits"] {
            is(&format!("write lines, no room: {name}"), "7");
        }
        is("write lines, no room: S at 20230924", "12");
    }

    #[test]
    fn statuses_at_their_dates() {
        let lines = |name: &str| {
            let examples = all();
            let example = examples.iter().find(|example| example.name == name);
            String::from_utf8_lossy(&example.expect(name).output()).into_owned()
        };
        for (status, taken, refused) in [
            ("02", 20231231, 20240101),
            ("32", 20231001, 20230930),
            ("33", 20240101, 20231231),
        ] {
            let written = lines(&format!("write lines: {status} at {taken}"));
            assert!(written.contains(&format!("\n:26T:S{status}\n")));
            is(&format!("write lines: {status} at {refused}"), "8 101 10");
        }
    }

    #[test]
    fn blocks() {
        let of_s = "ok 004525987 40102810845370000004 03100643000000014800 0 - 6730054024 01 - \
                    772801001 - - - - - -";
        is("read lines: S", of_s);
        for status in ALL_STATUSES {
            let line = of_s.replace(" 01 ", &format!(" {status} "));
            is(&format!("read lines: status {status}"), &line);
        }
        for begin in CLASS_A {
            let line = of_s.replace("03100", begin);
            is(&format!("read lines: account {begin}"), &line);
        }
        let letters = of_s.replace("772801001", "7728AB001");
        is("read lines: a KPP with letters", &letters);
        let refused = [not_taken(), by_lines()].concat();
        for example in refused {
            assert_eq!(example.output(), b"11\n", "{}", example.name);
        }
    }
}

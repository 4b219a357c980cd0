//! R-6: "SWIFT lines for correspondent banks."

use cases::{accepted, disturb, Random, Texts, FIELDS, STATUSES};
use reference::{check, read_lines, write_lines};
use reference::{Class, Date, Record, Refusal};

use crate::fixture::{broken, class_b, class_o, of_status, s};
use crate::fixture::{Order, ENFORCEMENT, ORDER_DATE, UIN};

/// The lines of S.
const B: &str = "\
:26T:S01
:57D://RU004525987.40102810845370000004
:59:/03100643000000014800
INN6730054024.KPP772801001
:72:/UIP/0
";

/// "These seven fields".
const SEVEN: [u8; 7] = [101, 14, 15, 17, 61, 103, 22];

/// What a buffer held before.
const HELD: u8 = 0xA5;

/// A record that allows every status at every order date.
const ALWAYS: Record = Record {
    first32: Date(19_000_101),
    first33: Date(19_000_101),
    last02: Date(20_991_231),
};

/// "What these lines give for its texts", without a rule.
fn block(texts: &Texts) -> Vec<u8> {
    let mut block = Vec::new();
    for (before, field) in [
        (":26T:S", 101),
        ("\n:57D://RU", 14),
        (".", 15),
        ("\n:59:/", 17),
        ("\nINN", 61),
        (".KPP", 103),
        ("\n:72:/UIP/", 22),
    ] {
        block.extend_from_slice(before.as_bytes());
        block.extend_from_slice(&texts.get(field)[..]);
    }
    block.push(b'\n');
    block
}

/// The seven texts of an order, "all others blank".
fn seven(order: &Texts) -> Texts {
    copied(order, Texts::BLANK)
}

/// The other order with the seven texts of the first.
fn copied(from: &Texts, to: Texts) -> Texts {
    let copy = |texts: Texts, field| texts.with(field, &from.get(field)[..]);
    SEVEN.into_iter().fold(to, copy)
}

/// Writes a sheet's lines into so many bytes; checks that a refusal changes nothing
/// and that "the rest is left". Gives the lines.
fn written_at(sheet: &[u8], date: Date, record: Record, size: usize) -> Result<Vec<u8>, Refusal> {
    let mut buffer = vec![HELD; size];
    let answer = write_lines(sheet, date, record, &mut buffer);
    let (lines, rest) = buffer.split_at(answer.unwrap_or(0));
    assert!(rest.iter().all(|&byte| byte == HELD));
    answer.map(|_| lines.to_vec())
}

fn written(order: &Texts, size: usize) -> Result<Vec<u8>, Refusal> {
    written_at(&order.sheet(), ORDER_DATE, Record::GIVEN, size)
}

/// Reads a block; checks that a refusal changes nothing. Gives the sheet's texts.
fn read(block: &[u8]) -> Result<Texts, Refusal> {
    let mut sheet = [HELD; 390];
    let answer = read_lines(block, &mut sheet);
    if answer.is_err() {
        assert_eq!(sheet, [HELD; 390]);
    }
    answer.map(|()| {
        let slots = sheet.chunks(26).zip(FIELDS);
        let texts = slots.fold(Texts::BLANK, |texts, (slot, field)| {
            texts.with(field, &slot[1..][..usize::from(slot[0])])
        });
        assert_eq!(texts.sheet(), sheet);
        texts
    })
}

/// Reads to the seven texts of this order.
#[track_caller]
fn reads_to(block: impl AsRef<[u8]>, order: &Texts) {
    let texts = read(block.as_ref()).map(|texts| texts.sheet());
    assert_eq!(texts, Ok(seven(order).sheet()), "{}", order.shown());
}

#[track_caller]
fn no_lines(block: impl AsRef<[u8]>) {
    let block = block.as_ref();
    let answer = read(block).map(drop);
    assert_eq!(answer, Err(Refusal::NoLines), "{}", block.escape_ascii());
}

/// B with one part in place of another.
#[track_caller]
fn instead(part: &str, other: &str) -> String {
    assert_eq!(B.matches(part).count(), 1);
    B.replace(part, other)
}

/// Reads to 11, or to seven texts whose lines are the block; says which. Where these
/// texts make an accepted order, the writer gives the block too.
fn reads_back(block_read: &[u8]) -> bool {
    let texts = match read(block_read) {
        Ok(texts) => texts,
        Err(refusal) => {
            assert_eq!(refusal, Refusal::NoLines);
            return false;
        }
    };
    assert_eq!(texts.sheet(), seven(&texts).sheet());
    assert_eq!(block(&texts), block_read);
    let order = copied(&texts, Texts::s()).sheet();
    if check(&order, ORDER_DATE, ALWAYS).is_ok() {
        let lines = written_at(&order, ORDER_DATE, ALWAYS, block_read.len());
        assert_eq!(lines.as_deref(), Ok(block_read));
    }
    true
}

#[test]
fn the_lines_of_s() {
    assert_eq!(B.len(), 113);
    for size in [113, 114, 200, 1000] {
        assert_eq!(written(&s(&[]), size), Ok(B.into()));
    }
    for size in [0, 1, 112] {
        assert_eq!(written(&s(&[]), size), Err(Refusal::Output));
    }
}

#[test]
fn lengths_follow_the_code() {
    let twenty = "1".repeat(20);
    let longest = "1".repeat(25);
    for (code, length) in [("1234", 116), (&twenty, 132), (&longest, 137)] {
        let order = s(&[(17, ENFORCEMENT), (101, "08"), (22, code)]);
        let lines = format!(
            ":26T:S08\n:57D://RU004525987.40102810845370000004\n:59:/{ENFORCEMENT}\n\
             INN6730054024.KPP772801001\n:72:/UIP/{code}\n"
        );
        assert_eq!(lines.len(), length);
        assert_eq!(written(&order, length), Ok(lines.clone().into()));
        assert_eq!(written(&order, 390), Ok(lines.clone().into()));
        assert_eq!(written(&order, length - 1), Err(Refusal::Output));
        reads_to(lines, &order);
    }
}

/// "The writer tests 1, 8, 11, then 7 (buffer too short)".
#[test]
fn the_order_of_the_writers_refusals() {
    let mut padded = s(&[]).sheet();
    padded[25] = 1;
    for malformed in [&[][..], &[0; 389], &[0; 391], &[0xFF; 390], &padded] {
        let answer = written_at(malformed, ORDER_DATE, Record::GIVEN, 0);
        assert_eq!(answer, Err(Refusal::Malformed));
        let answer = written_at(malformed, Date(0), Record::GIVEN, 0);
        assert_eq!(answer, Err(Refusal::Malformed));
    }
    for (order, refusal) in [
        (s(&[(61, "0")]), broken(61, 9)),
        (s(&[(101, "31")]), broken(17, 20)),
        (s(&[(101, "02")]), broken(101, 10)),
        (s(&[(108, "")]), broken(108, 6)),
        (class_b().with(101, b"09"), broken(101, 10)),
        (class_o().with(101, b"01"), broken(101, 4)),
        (Texts::BLANK, broken(14, 1)),
        (class_b(), Refusal::NoLines),
        (class_o(), Refusal::NoLines),
        (s(&[]), Refusal::Output),
    ] {
        assert_eq!(written(&order, 0), Err(refusal), "{}", order.shown());
        let roomy = written(&order, 200);
        match refusal {
            Refusal::Output => assert_eq!(roomy, Ok(B.into())),
            _ => assert_eq!(roomy, Err(refusal), "{}", order.shown()),
        }
        // 12 "comes just before 8".
        let sheet = order.sheet();
        let early = written_at(&sheet, Date(20_230_924), Record::GIVEN, 0);
        assert_eq!(early, Err(Refusal::Undated), "{}", order.shown());
        let no_date = Record {
            last02: Date(20_231_232),
            ..Record::GIVEN
        };
        let answer = written_at(&sheet, ORDER_DATE, no_date, 200);
        assert_eq!(answer, Err(Refusal::Undated), "{}", order.shown());
    }
}

/// "The MT103 writer takes date and record too; its reader takes 02 as well."
#[test]
fn the_date_is_the_writers_alone() {
    for (status, date, taken) in [
        ("02", 20_231_231, true),
        ("02", 20_240_101, false),
        ("32", 20_230_930, false),
        ("32", 20_231_001, true),
        ("33", 20_231_231, false),
        ("33", 20_240_101, true),
    ] {
        let order = of_status(status);
        let lines = written_at(&order.sheet(), Date(date), Record::GIVEN, 200);
        let expected = if taken {
            Ok(block(&order))
        } else {
            Err(broken(101, 10))
        };
        assert_eq!(lines, expected, "{status} {date}");
        reads_to(block(&order), &order);
    }
}

#[test]
fn every_status() {
    for status in STATUSES.into_iter().chain(["02"]) {
        let order = of_status(status);
        let lines = written_at(&order.sheet(), ORDER_DATE, ALWAYS, 137).unwrap();
        assert!(lines.starts_with(format!(":26T:S{status}\n").as_bytes()));
        assert_eq!(lines, block(&order));
        reads_to(lines, &order);
        // The reader asks nothing of the status but rule 10.
        reads_to(instead("S01", &format!("S{status}")), &s(&[(101, status)]));
    }
    for number in 0..100 {
        let status = format!("{number:02}");
        if status != "02" && !STATUSES.contains(&&status[..]) {
            no_lines(instead("S01", &format!("S{status}")));
        }
    }
}

#[test]
fn blocks_taken() {
    reads_to(B, &s(&[]));
    reads_to(instead("S01", "S31"), &s(&[(101, "31")]));
    reads_to(instead("S01", "S02"), &s(&[(101, "02")]));
    let letters = instead("KPP772801001", "KPP7728AB001");
    reads_to(letters, &s(&[(103, "7728AB001")]));
    let code = instead("UIP/0", &format!("UIP/{UIN}"));
    reads_to(code, &s(&[(22, UIN)]));
    // Rules 19, 20 and 22 aren't the reader's.
    let enforcement = instead("03100643000000014800", ENFORCEMENT);
    reads_to(&enforcement, &s(&[(17, ENFORCEMENT)]));
    let code = enforcement.replace("UIP/0", "UIP/1234");
    reads_to(code, &s(&[(17, ENFORCEMENT), (22, "1234")]));
    let zeros = instead("RU004525987", "RU000000000");
    reads_to(zeros, &s(&[(14, "000000000")]));
}

#[test]
fn other_blocks() {
    no_lines(&B[..112]);
    no_lines(format!("{B}\n"));
    no_lines(format!("\n{B}"));
    no_lines(B.replace('\n', "\r\n"));
    no_lines(B.replace('\n', "\r"));
    no_lines(B.repeat(2));
    no_lines(format!("{B}-}}"));
    no_lines("");
    no_lines("\n\n\n\n\n");
    for (part, other) in [
        ("S01", "S09"),
        ("S01", "S1"),
        ("S01", "S"),
        ("S01", "S001"),
        ("S01", "s01"),
        ("S01", "S01 "),
        (".40102", ".40103"),
        (".40102810845370000004", "."),
        (".40102810845370000004", ""),
        ("RU004525987.40102", "RU00452598740102"),
        ("RU004525987.", "RU004525987.."),
        ("RU004525987", "RU04525987"),
        ("//RU", "//ru"),
        ("/03100643", "/03100810"),
        ("/03100", "/03254"),
        (":59:/", ":59:"),
        ("UIP/0", "UIP/"),
        ("UIP/0", "UIP/1234"),
        ("UIP/0", "UIP/00000000000000000000"),
        ("UIP/0", "UIP/0000000000000000000000000"),
        ("UIP/0", "UIP/00000000000000000000000001"),
        ("UIP/0", "UIP/0 "),
        ("6730054024", "6730054025"),
        ("6730054024", "0"),
        ("6730054024", "0000000000"),
        ("KPP772801001", "KPP0"),
        ("KPP772801001", "KPP002801001"),
        ("KPP772801001", "KPP7728ab001"),
        ("KPP772801001", "KPPA72801001"),
        (".KPP", "KPP"),
        (".KPP", "/KPP"),
        ("INN", "inn"),
    ] {
        no_lines(instead(part, other));
    }
    // A class B sheet's texts, and those with a blank 15.
    no_lines(block(&class_b()));
    no_lines(block(&class_o()));
    no_lines(block(&Texts::BLANK));
}

#[test]
fn lines_missing_doubled_or_moved() {
    let lines: Vec<&str> = B.split_inclusive('\n').collect();
    for i in 0..5 {
        let mut missing = lines.clone();
        let line = missing.remove(i);
        no_lines(missing.concat());
        for j in 0..5 {
            let mut moved = missing.clone();
            moved.insert(j, line);
            assert_eq!(reads_back(moved.concat().as_bytes()), i == j);
            let mut doubled = lines.clone();
            doubled.insert(j, line);
            no_lines(doubled.concat());
        }
    }
}

/// "The reader 7, then 11".
#[test]
fn the_order_of_the_readers_refusals() {
    for size in [0, 26, 389, 391, 780] {
        for block in ["", "x", B] {
            let mut sheet = vec![HELD; size];
            let answer = read_lines(block.as_bytes(), &mut sheet);
            assert_eq!(answer, Err(Refusal::Output));
            assert!(sheet.iter().all(|&byte| byte == HELD));
        }
    }
    no_lines("");
}

/// B with one byte changed, dropped or doubled.
#[test]
fn one_byte_off() {
    let mut taken = 0;
    for at in 0..B.len() {
        for value in 0..=u8::MAX {
            let mut block = B.as_bytes().to_vec();
            block[at] = value;
            taken += u32::from(reads_back(&block));
        }
        let (before, after) = B.split_at(at);
        no_lines(format!("{before}{}", &after[1..]));
        no_lines(format!("{before}{}{after}", &after[..1]));
    }
    // B itself at each byte; 8 other statuses; 9 other digits at 9 places of 14, 15 of
    // 15, 12 of 17 and 9 of 103; the letters at two of these. No digit of 61 may change.
    assert_eq!(taken, 113 + 8 + 9 * (9 + 15 + 12 + 9) + 2 * 26);
}

/// Blocks that are near one that reads.
#[test]
fn several_bytes_off() {
    const BYTES: &[u8] = b"0123456789\n\r.:/SRUINKPTD ";
    let random = &mut Random::new(6);
    let (mut taken, mut refused) = (0, 0);
    for _ in 0..200_000 {
        let mut lines = block(&accepted(random));
        for _ in 0..=random.below(3) {
            let at = random.below(lines.len());
            match random.below(8) {
                0 => drop(lines.remove(at)),
                1 => lines.insert(at, random.pick(BYTES)),
                _ => lines[at] = random.pick(BYTES),
            }
        }
        match reads_back(&lines) {
            true => taken += 1,
            false => refused += 1,
        }
    }
    assert!(taken > 1000 && refused > 1000, "{taken} {refused}");
}

/// "Writing and then reading yields the same seven texts, and each block that reads is
/// what these lines give for its texts."
#[test]
fn round_trips() {
    let random = &mut Random::new(103);
    let (mut lines, mut others, mut refused) = (0, 0, 0);
    for _ in 0..100_000 {
        let mut order = accepted(random);
        if random.percent(30) {
            disturb(random, &mut order);
        }
        let sheet = order.sheet();
        match check(&sheet, ORDER_DATE, Record::GIVEN) {
            Ok(Class::A) => {
                let length = block(&order).len();
                assert_eq!(written(&order, length), Ok(block(&order)));
                assert_eq!(written(&order, length - 1), Err(Refusal::Output));
                assert!(reads_back(&block(&order)));
                reads_to(block(&order), &order);
                lines += 1;
            }
            Ok(Class::B | Class::O) => {
                assert_eq!(written(&order, 0), Err(Refusal::NoLines));
                no_lines(block(&order));
                others += 1;
            }
            Err(refusal) => {
                assert_eq!(written(&order, 0), Err(refusal));
                refused += 1;
            }
        }
    }
    let times = [lines, others, refused];
    assert!(times.iter().all(|&times| times > 1000), "{times:?}");
}

/// Texts for one of the seven fields, those that keep its rule first.
const fn some_texts(field: u8) -> &'static [&'static str] {
    match field {
        14 => &["004525987", "044525000", "00452598", "00452598x", ""],
        15 => &[
            "40102810845370000004",
            "40102000000000000000",
            "40103810845370000004",
            "4010281084537000000",
            "",
        ],
        17 => &[
            "03100643000000014800",
            ENFORCEMENT,
            "03222643000000014800",
            "03252643000000014800",
            "03244643000000000000",
            "03100810000000014800",
            "03254643000000014800",
            "0310064300000001480",
            "40503810000004000000",
            "40204643000000000000",
            "",
        ],
        22 => &[
            "0",
            UIN,
            "1234",
            "0000000000000000000000001",
            "00000000000000000000",
            "0000",
            "12345",
            "0\n",
            "",
        ],
        61 => &[
            "6730054024",
            "7701569743",
            "6730054025",
            "0000000000",
            "781023456779",
            "0",
            "6730054024.",
            "",
        ],
        101 => &[
            "01", "02", "08", "31", "33", "09", "1", "001", "00", "0\r", "",
        ],
        _ => &[
            "772801001",
            "7728AB001",
            "7728Z0001",
            "002801001",
            "7728aB001",
            "77280100A",
            "0",
            "",
        ],
    }
}

/// "It takes exactly the blocks of these lines whose texts keep rules 1, 2, 3, 5, 7, 9,
/// 10 and 12 and make class A." The other texts are S's, so of the rules 1 to 18 the
/// check names one of these, 4 in class O, or 6 at a blank that breaks 7, 9, 10 or 12.
#[test]
fn exactly_the_texts_that_keep_the_rules() {
    let random = &mut Random::new(57);
    let (mut taken, mut refused) = (0, 0);
    for _ in 0..300_000 {
        let order = SEVEN.into_iter().fold(Texts::s(), |order, field| {
            let texts = some_texts(field);
            let text = match random.percent(80) {
                true => random.pick(&texts[..2]),
                false => random.pick(texts),
            };
            order.with(field, text.as_bytes())
        });
        let kept = match check(&order.sheet(), ORDER_DATE, ALWAYS) {
            Ok(class) => class == Class::A,
            Err(Refusal::Broken { rule, .. }) => rule >= 19 && order.get(17).starts_with(b"03"),
            Err(_) => false,
        };
        if kept {
            reads_to(block(&order), &order);
            taken += 1;
        } else {
            no_lines(block(&order));
            refused += 1;
        }
    }
    assert!(taken > 1000 && refused > 1000, "{taken} {refused}");
}

#[test]
fn its_number() {
    assert_eq!(Refusal::NoLines.number(), 11);
    assert_eq!(Refusal::NoLines.to_string(), "11");
}

//! MT103 lines: those of document 01's sheet S and of others, written and read.

use cases::{class_a, damaged_block, lines_of, of_lines, Random, Sheet, Texts};
use cases::{ALL_STATUSES, LINE_LENGTHS};
use kieselbrot::words::{lines_not_read, lines_not_written};
use kieselbrot::{check, read_lines, write_lines};
use kieselbrot::{Class, Date, Record, Refusal, Terms, LINES_BLOCK_MAX};

/// The lines of S.
const B: &str = "\
:26T:S01
:57D://RU004525987.40102810845370000004
:59:/03100643000000014800
INN6730054024.KPP772801001
:72:/UIP/0
";

const DATE: Date = Date(20240101);

/// A record that allows every status.
const ALWAYS: Record = Record {
    first32: Date(19000101),
    first33: Date(19000101),
    last02: Date(20991231),
};

/// What a buffer held before.
const HELD: u8 = 0xEE;

/// Writes a sheet's lines into so many bytes. The rest stays, or all after a refusal.
fn written_at(sheet: &[u8], terms: Terms, size: usize) -> Result<String, Refusal> {
    let mut buffer = vec![HELD; size];
    let answer = write_lines(sheet, terms, &mut buffer);
    let (lines, rest) = buffer.split_at(answer.unwrap_or(0));
    assert!(rest.iter().all(|&byte| byte == HELD));
    answer.map(|_| String::from_utf8_lossy(lines).into_owned())
}

fn written(texts: &Texts, size: usize) -> Result<String, Refusal> {
    written_at(&texts.sheet(), Terms::given(DATE), size)
}

/// Reads a block into a sheet, which stays after a refusal.
fn read(block: impl AsRef<[u8]>) -> Result<Sheet, Refusal> {
    let mut sheet = [HELD; 390];
    let answer = read_lines(block.as_ref(), &mut sheet);
    if answer.is_err() {
        assert_eq!(sheet, [HELD; 390]);
    }
    answer.map(|()| sheet)
}

/// B with one part in place of another.
#[track_caller]
fn instead(part: &str, other: &str) -> String {
    assert_eq!(B.matches(part).count(), 1);
    B.replace(part, other)
}

fn enforcement(code: &[u8]) -> Texts {
    let account = Texts::s().with(17, b"03212643000000014800");
    account.with(101, b"08").with(22, code)
}

/// Class B, then class O.
fn other_classes() -> [Texts; 2] {
    let s = Texts::s();
    let class_b = s.with(14, b"044525000").with(17, b"40503810000004000000");
    [class_b.without(&[15]), s.without(&[15, 101])]
}

#[test]
fn the_lines_of_s() {
    assert_eq!(B.len(), 113);
    for size in [113, 200] {
        assert_eq!(written(&Texts::s(), size), Ok(B.to_owned()));
    }
    for size in [0, 112] {
        assert_eq!(written(&Texts::s(), size), Err(Refusal::Output));
    }
}

#[test]
fn lengths_follow_the_code() {
    for (code, length) in [(&b"1234"[..], 116), (&[b'1'; 20], 132), (&[b'1'; 25], 137)] {
        let lines = written(&enforcement(code), length).expect("lines");
        assert_eq!(lines.len(), length);
        let code = String::from_utf8_lossy(code);
        let expected = instead("S01", "S08")
            .replace("03100643", "03212643")
            .replace("UIP/0", &format!("UIP/{code}"));
        assert_eq!(lines, expected);
    }
    assert_eq!(LINES_BLOCK_MAX, 137);
}

#[test]
fn what_the_writer_tests_first() {
    let s = Texts::s();
    let broken = |field, rule| Refusal::Broken { field, rule };
    let [class_b, class_o] = other_classes();
    for (texts, refusal) in [
        (s.with(14, &[b'0'; 26]), Refusal::Malformed),
        (s.with(61, b"0"), broken(61, 9)),
        (s.with(101, b"31"), broken(17, 20)),
        (class_b.with(61, b"0"), broken(61, 9)),
        (class_o.with(101, b"01"), broken(101, 4)),
        (class_b, Refusal::NoLines),
        (class_o, Refusal::NoLines),
        (s, Refusal::Output),
    ] {
        assert_eq!(written(&texts, 0), Err(refusal));
        if refusal != Refusal::Output {
            assert_eq!(written(&texts, 200), Err(refusal));
        }
        // 12 behind 1, ahead of all others.
        let early = written_at(&texts.sheet(), Terms::given(Date(20230924)), 0);
        let expected = match refusal {
            Refusal::Malformed => refusal,
            _ => Refusal::Undated,
        };
        assert_eq!(early, Err(expected));
    }
    for size in [0, 389, 391] {
        let sheet = vec![0; size];
        assert_eq!(
            written_at(&sheet, Terms::given(DATE), 0),
            Err(Refusal::Malformed)
        );
    }
}

/// The writer takes the date, the reader none.
#[test]
fn statuses_at_their_dates() {
    let random = &mut Random::new(6);
    let (field, rule) = (101, 10);
    for (status, date, taken) in [
        ("02", 20231231, true),
        ("02", 20240101, false),
        ("32", 20230930, false),
        ("32", 20231001, true),
        ("33", 20231231, false),
        ("33", 20240101, true),
    ] {
        let texts = class_a(random, status);
        let lines = written_at(&texts.sheet(), Terms::given(Date(date)), 137);
        match taken {
            true => assert_eq!(lines.map(String::into_bytes), Ok(lines_of(&texts))),
            false => assert_eq!(lines, Err(Refusal::Broken { field, rule })),
        }
        assert_eq!(read(lines_of(&texts)), Ok(of_lines(&texts).sheet()));
    }
}

#[test]
fn blocks_taken() {
    let s = Texts::s();
    for (block, texts) in [
        (B.to_owned(), s),
        (instead("S01", "S31"), s.with(101, b"31")),
        (instead("S01", "S02"), s.with(101, b"02")),
        (
            instead("KPP772801001", "KPP7728AB001"),
            s.with(103, b"7728AB001"),
        ),
    ] {
        assert_eq!(read(&block), Ok(of_lines(&texts).sheet()), "{block}");
    }
}

#[test]
fn other_blocks() {
    let mut blocks = vec![
        String::new(),
        B[..112].to_owned(),
        format!("{B}\n"),
        B.replace('\n', "\r\n"),
    ];
    for (part, other) in [
        ("S01", "S09"),
        ("S01", "S1"),
        ("S01", "s01"),
        (".40102", ".40103"),
        ("03100643", "03100810"),
        ("/03100", "/03254"),
        ("UIP/0", "UIP/"),
        ("UIP/0", "UIP/1234"),
        ("UIP/0", "UIP/00000000000000000000"),
        ("6730054024", "6730054025"),
        ("KPP772801001", "KPP0"),
    ] {
        blocks.push(instead(part, other));
    }
    for block in blocks {
        assert_eq!(read(&block), Err(Refusal::NoLines), "{block}");
    }
    for texts in other_classes() {
        assert_eq!(read(lines_of(&texts)), Err(Refusal::NoLines));
    }
}

/// 7 comes ahead of 11.
#[test]
fn sheets_of_another_size() {
    for size in [0, 26, 389, 391, 780] {
        for block in ["", B] {
            let mut sheet = vec![HELD; size];
            let answer = read_lines(block.as_bytes(), &mut sheet);
            assert_eq!(answer, Err(Refusal::Output));
            assert_eq!(sheet, vec![HELD; size]);
        }
    }
}

/// What is written reads back as the same seven texts.
#[test]
fn written_and_read() {
    let random = &mut Random::new(103);
    let mut lengths = [0; 4];
    for status in ALL_STATUSES.into_iter().cycle().take(4_600) {
        let texts = class_a(random, status);
        let lines = written_at(&texts.sheet(), Terms::new(DATE, ALWAYS), 137).expect("lines");
        assert_eq!(lines.as_bytes(), lines_of(&texts));
        assert_eq!(read(&lines), Ok(of_lines(&texts).sheet()));
        let length = LINE_LENGTHS.iter().position(|&size| size == lines.len());
        lengths[length.expect("one of the four")] += 1;
    }
    assert!(lengths.iter().all(|&times| times > 10), "{lengths:?}");
}

/// Each block that reads is what the lines of its texts are.
#[test]
fn read_and_written() {
    let random = &mut Random::new(57);
    let mut taken = 0;
    for status in ALL_STATUSES.into_iter().cycle().take(50_000) {
        let block = lines_of(&class_a(random, status));
        let block = damaged_block(random, block);
        let Ok(sheet) = read(&block) else { continue };
        assert_eq!(lines_of(&Texts::of(&sheet)), block);
        taken += 1;
    }
    assert!(taken > 1_000, "{taken}");
}

/// A sheet that is read has no payer, and so breaks rule 6.
#[test]
fn a_sheet_that_is_read_is_no_whole_order() {
    let sheet = read(B).expect("lines");
    let (field, rule) = (60, 6);
    let broken = Err(Refusal::Broken { field, rule });
    assert_eq!(check(&sheet, Terms::given(DATE)), broken);
    let whole = check(&Texts::s().sheet(), Terms::given(DATE));
    assert_eq!(whole, Ok(Class::A));
}

#[test]
fn refusals_in_words() {
    let not_written = |refusal| lines_not_written(refusal, Terms::given(DATE));
    assert_eq!(
        not_written(Refusal::Malformed),
        "This sheet is malformed: it can't be read as an order."
    );
    assert!(not_written(Refusal::Undated).starts_with("These dates are refused: "));
    let (field, rule) = (61, 9);
    assert_eq!(
        not_written(Refusal::Broken { field, rule }),
        "No lines are written of this order: rule 9 is broken in field 61 (recipient's INN): the \
         recipient's INN (61) must be an INN of 10 digits that do not begin 00, with a right check \
         digit."
    );
    assert_eq!(
        not_written(Refusal::NoLines),
        "This order has no MT103 lines: it is no budget payment to an account at the treasury."
    );
    assert_eq!(
        not_written(Refusal::Output),
        "The buffer is shorter than the lines: 137 bytes are enough for any."
    );
    assert_eq!(
        lines_not_read(Refusal::Output),
        "The sheet must have 390 bytes."
    );
    assert_eq!(
        lines_not_read(Refusal::NoLines),
        "This block is not the MT103 lines of a budget payment to an account at the treasury."
    );
}

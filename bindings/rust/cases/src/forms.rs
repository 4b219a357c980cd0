//! Texts of one field: those that a form allows, and those beside it.

use crate::dates::Dates;
use crate::random::Random;
use crate::texts::Text;

/// Rule 15's texts.
pub const BASES: [&[u8]; 12] = [
    b"0",
    b"00",
    b"\xD3\xC2",
    b"\xC8\xCB",
    b"\xCF\xC1",
    b"\xD2\xC3",
    b"\xD2\xC1",
    b"\xD2\xC4",
    b"\xCF\xC2",
    b"\xC8\xCD",
    b"\xCF\xCA",
    b"\xCA\xDD",
];

/// What field 17 begins with in class A.
pub const CLASS_A: [&str; 12] = [
    "03100", "03212", "03222", "03232", "03242", "03252", "03262", "03272", "03214", "03224",
    "03234", "03244",
];

/// What field 17 begins with in class B.
pub const CLASS_B: [&str; 4] = ["40204", "40503", "40603", "40703"];

/// The first two digits of a person identifier.
const PERSONS: [&str; 21] = [
    "01", "02", "03", "04", "05", "06", "07", "08", "09", "10", "11", "12", "13", "14", "22", "24",
    "25", "26", "28", "29", "30",
];

/// A field's list in completion; empty if it has none.
#[must_use]
pub fn list(field: u8) -> Vec<&'static [u8]> {
    list_at(field, Dates::PROGRAM)
}

/// The same at other dates.
#[must_use]
pub fn list_at(field: u8, dates: Dates) -> Vec<&'static [u8]> {
    match field {
        22 | 60 | 102 | 104 | 105 | 107 => vec![b"0"],
        101 => dates.statuses().into_iter().map(str::as_bytes).collect(),
        106 => BASES.to_vec(),
        108 | 109 => vec![b"0", b"00"],
        _ => vec![],
    }
}

/// The beginning, and digits up to a width.
pub fn digits_after(random: &mut Random, begin: &str, width: usize) -> Text {
    let mut text = Text::new(begin.as_bytes());
    while text.len() < width {
        text.push(b'0' + random.below(10) as u8);
    }
    text
}

/// So many digits.
pub fn digits(random: &mut Random, width: usize) -> Text {
    digits_after(random, "", width)
}

/// So many digits, not all zero.
pub fn nonzero(random: &mut Random, width: usize) -> Text {
    let mut text = digits_after(random, "", width);
    if random.percent(10) {
        text.bytes_mut().fill(b'0');
    }
    text.bytes_mut()[random.below(width)] = b'1' + random.below(9) as u8;
    text
}

/// So many digits, not beginning 00.
fn registered(random: &mut Random, width: usize) -> Text {
    let begin = random.pick(&["01", "10", "77", "99", "05"]);
    digits_after(random, begin, width)
}

/// The weights of the digits before each check digit of an INN: the tenth, the eleventh, the twelfth.
const WEIGHTS_10: &[u32] = &[2, 4, 10, 3, 5, 9, 4, 6, 8];
const WEIGHTS_11: &[u32] = &[7, 2, 4, 10, 3, 5, 9, 4, 6, 8];
const WEIGHTS_12: &[u32] = &[3, 7, 2, 4, 10, 3, 5, 9, 4, 6, 8];

/// The weights for each check digit of an INN of so many digits.
#[must_use]
pub const fn inn_weights(width: usize) -> &'static [&'static [u32]] {
    if width == 12 {
        &[WEIGHTS_11, WEIGHTS_12]
    } else {
        &[WEIGHTS_10]
    }
}

/// What the weighted sum of digits leaves modulo 11; 10 is written 0.
#[must_use]
pub fn inn_remainder(digits: &[u8], weights: &[u32]) -> u32 {
    let weighted = |(digit, weight): (&u8, &u32)| u32::from(digit - b'0') * weight;
    digits.iter().zip(weights).map(weighted).sum::<u32>() % 11
}

/// Sets the check digit behind those that have a weight.
fn set_check_digit(text: &mut Text, weights: &[u32]) {
    let digit = inn_remainder(text, weights) % 10;
    text.bytes_mut()[weights.len()] = b'0' + digit as u8;
}

fn set_check_digits(text: &mut Text) {
    let weights = inn_weights(text.len());
    weights
        .iter()
        .for_each(|weights| set_check_digit(text, weights));
}

/// An INN of 10 or 12 digits.
pub fn inn(random: &mut Random, width: usize) -> Text {
    let mut text = registered(random, width);
    set_check_digits(&mut text);
    text
}

/// An INN or nearly one: a digit off, one check digit off and the one behind it right again, 00 in front of right check
/// digits, or digits.
fn near_inn(random: &mut Random, width: usize) -> Text {
    let mut text = inn(random, width);
    let off = |text: &mut Text, place: usize| {
        let digit = &mut text.bytes_mut()[place];
        *digit = if *digit == b'9' { b'0' } else { *digit + 1 };
    };
    match random.below(8) {
        0 => return near_digits(random, width),
        1 => off(&mut text, random.below(width)),
        2 => off(&mut text, width - 1),
        3 => {
            let weights = inn_weights(width);
            off(&mut text, weights[0].len());
            weights[1..]
                .iter()
                .for_each(|weights| set_check_digit(&mut text, weights));
        }
        4 => {
            text.bytes_mut()[..2].fill(b'0');
            set_check_digits(&mut text);
        }
        _ => {}
    }
    text
}

/// A KPP: nine digits not beginning 00, letters at places 5 and 6 now and then.
pub fn kpp(random: &mut Random) -> Text {
    let mut text = registered(random, 9);
    for place in [4, 5] {
        if random.percent(8) {
            let letter = random.below(26) as u8;
            text.bytes_mut()[place] = random.pick(&[b'A', b'Z', b'A' + letter]);
        }
    }
    text
}

/// A KPP or nearly one: a neighbour of the ranges at places 5 and 6, or a letter elsewhere.
fn near_kpp(random: &mut Random) -> Text {
    const NEIGHBOURS: &[u8] = b"/09:@AZ[`az\x7F\xC0\xC1\xDF";
    let mut text = match random.below(3) {
        0 => near_digits(random, 9),
        _ => kpp(random),
    };
    if random.percent(50) && text.len() == 9 {
        let place = match random.below(3) {
            0 => random.below(9),
            _ => 4 + random.below(2),
        };
        text.bytes_mut()[place] = random.pick(NEIGHBOURS);
    }
    text
}

/// A UIN: 20 or 25 digits.
pub fn uin(random: &mut Random) -> Text {
    let width = random.pick(&[20, 25]);
    nonzero(random, width)
}

/// A letter pair of rule 15.
pub fn pair(random: &mut Random) -> Text {
    Text::new(random.pick(&BASES[2..]))
}

/// A byte that rule 17 allows, and no ";".
fn document_byte(random: &mut Random) -> u8 {
    random.pick(b"!,./09:<=AZaz~\xC0\xC1\xDF\xE0\xFF")
}

fn document_bytes(random: &mut Random, text: &mut Text, length: usize) {
    while text.len() < length {
        text.push(document_byte(random));
    }
}

/// The greatest nine digits that rule 35 takes with any last two.
pub const SNILS_BOUND: u32 = 1_001_998;

/// What rule 35's weighted sum of nine digits leaves modulo 101.
#[must_use]
pub fn snils_remainder(nine: &[u8]) -> u32 {
    let weighted = |(digit, weight): (&u8, u32)| u32::from(digit - b'0') * weight;
    nine.iter().zip((1..=9).rev()).map(weighted).sum::<u32>() % 101
}

/// Nine digits: near the bound, by what their sum leaves, or any.
fn nine(random: &mut Random) -> Text {
    let edge = random.below(4) as u32;
    match random.below(8) {
        0 => Text::new(format!("{:09}", SNILS_BOUND + 2 - edge).as_bytes()),
        1 => Text::new(format!("{:09}", random.below(1_001_999)).as_bytes()),
        2 | 3 => {
            let wanted = random.pick(&[0, 1, 9, 10, 99, 100]);
            loop {
                let text = digits(random, 9);
                if snils_remainder(&text) == wanted {
                    break text;
                }
            }
        }
        _ => digits(random, 9),
    }
}

/// An identifier of type 14 with a pension number that rule 35 keeps.
pub fn snils(random: &mut Random) -> Text {
    let nine = nine(random);
    let last = snils_remainder(&nine) % 100;
    snils_of(&nine, last)
}

/// The same, and any last two digits, one more than the right ones, or another number of digits.
fn near_snils(random: &mut Random) -> Text {
    let nine = nine(random);
    let right = snils_remainder(&nine) % 100;
    let mut text = match random.below(4) {
        0 => snils_of(&nine, (right + 1) % 100),
        _ => snils_of(&nine, random.below(100) as u32),
    };
    match random.below(8) {
        0 => text.push(b'0'),
        1 => text = Text::new(&text[..text.len() - 1]),
        2 => {
            let place = 3 + random.below(11);
            text.bytes_mut()[place] = random.pick(b"/:A;");
        }
        _ => {}
    }
    text
}

fn snils_of(nine: &Text, last: u32) -> Text {
    let mut text = Text::new(b"14;");
    let two = format!("{last:02}");
    nine.iter()
        .chain(two.as_bytes())
        .for_each(|&digit| text.push(digit));
    text
}

/// A person identifier of field 108.
pub fn person(random: &mut Random) -> Text {
    let kind = random.pick(&PERSONS);
    if kind == "14" || random.percent(10) {
        return snils(random);
    }
    let mut text = Text::new(kind.as_bytes());
    text.push(b';');
    let length = 4 + random.below(12);
    document_bytes(random, &mut text, length);
    text
}

/// A text of field 108 that is neither an identifier nor zeros.
pub fn document(random: &mut Random) -> Text {
    let mut text = Text::new(random.pick(&[&b"1"[..], b"000", b"A;", b"\xC0", b"7;1", b"123;"]));
    let length = random.below(16);
    document_bytes(random, &mut text, length);
    text
}

/// A date of the years 1900 to 2099.
pub fn date(random: &mut Random) -> Text {
    match random.below(4) {
        0 => Text::new(random.pick(&[
            &b"29.02.2000"[..],
            b"29.02.1904",
            b"28.02.1900",
            b"31.12.2099",
            b"01.01.1900",
            b"29.02.2096",
        ])),
        _ => dotted(
            1 + random.below(28),
            1 + random.below(12),
            1900 + random.below(200),
        ),
    }
}

fn dotted(day: usize, month: usize, year: usize) -> Text {
    Text::new(format!("{day:02}.{month:02}.{year:04}").as_bytes())
}

/// A date or nearly one.
fn near_date(random: &mut Random) -> Text {
    match random.below(3) {
        0 => Text::new(random.pick(&[
            &b"29.02.1900"[..],
            b"29.02.2023",
            b"29.02.2100",
            b"31.12.1899",
            b"01.01.2100",
            b"00.01.2024",
            b"01.00.2024",
            b"01.13.2024",
            b"1.01.2024",
            b"01/01/2024",
            b"01.01.24",
        ])),
        _ => dotted(
            27 + random.below(6),
            random.below(14),
            random.pick(&[1900, 1999, 2000, 2023, 2024, 2099]),
        ),
    }
}

/// Any account of field 17, with or without the beginning of a class.
fn account(random: &mut Random) -> Text {
    const NEAR: [&str; 8] = [
        "03101", "03213", "03282", "03254", "40205", "40504", "40102", "0310",
    ];
    let begin = match random.below(4) {
        0 | 1 => random.pick(&CLASS_A),
        2 => random.pick(&CLASS_B),
        _ => random.pick(&NEAR),
    };
    let mut text = digits_after(random, begin, 20);
    if random.percent(60) {
        text.bytes_mut()[5..8].copy_from_slice(b"643");
    }
    if random.percent(50) {
        text.bytes_mut()[13] = b'4';
    }
    text
}

/// Digits of a width or one beside it; of zeros, or beginning with them.
fn near_digits(random: &mut Random, width: usize) -> Text {
    let width = match random.below(8) {
        0 => width - 1,
        1 => width + 1,
        _ => width,
    };
    let mut text = digits(random, width);
    match random.below(6) {
        0 => text.bytes_mut().fill(b'0'),
        1 => text
            .bytes_mut()
            .iter_mut()
            .take(2)
            .for_each(|digit| *digit = b'0'),
        2 => text.bytes_mut()[0] = b'0',
        _ => {}
    }
    text
}

/// A letter pair or nearly one.
fn near_pair(random: &mut Random) -> Text {
    const LETTERS: &[u8] = b"\xD3\xC2\xC8\xCB\xCF\xC1\xD2\xC3\xC4\xCD\xCA\xDD\xE0T0";
    let mut text = Text::new(&[random.pick(LETTERS), random.pick(LETTERS)]);
    if random.percent(10) {
        text.push(random.pick(LETTERS));
    }
    text
}

/// A text of field 108 or nearly one.
fn near_document(random: &mut Random) -> Text {
    const EDGES: &[u8] = &[0, 32, 33, 44, 45, 46, b';', 126, 127, 128, 191, 192, 255];
    match random.below(6) {
        0 => {
            let number = random.below(32);
            let mut text = Text::new(format!("{number:02};").as_bytes());
            let length = 3 + random.below(14);
            document_bytes(random, &mut text, length);
            text
        }
        1..=3 => {
            let mut text = document(random);
            let place = random.below(text.len());
            text.bytes_mut()[place] = random.pick(EDGES);
            text
        }
        4 => {
            let mut text = Text::BLANK;
            let length = 13 + random.below(5);
            document_bytes(random, &mut text, length);
            text
        }
        _ => document(random),
    }
}

/// A text that might stand in this field at these dates.
pub fn text_for(random: &mut Random, field: u8, dates: Dates) -> Text {
    if has_zero(field) && random.percent(25) {
        return Text::new(random.pick(&[&b"0"[..], b"0", b"00", b"000"]));
    }
    match field {
        14 if random.percent(60) => digits_after(random, "044525", 9),
        14 if random.percent(60) => {
            let end = random.below(8);
            digits_after(random, &format!("04452500{end}"), 9)
        }
        14 => near_digits(random, 9),
        15 if random.percent(50) => digits_after(random, "40102", 20),
        15 => near_digits(random, 20),
        17 if random.percent(90) => account(random),
        17 => near_digits(random, 20),
        22 => {
            let width = random.pick(&[4, 20, 25, 20, 25]);
            near_digits(random, width)
        }
        60 if random.percent(30) => near_digits(random, 5),
        60 => {
            let width = random.pick(&[10, 12]);
            near_inn(random, width)
        }
        61 => near_inn(random, 10),
        101 if random.percent(80) => Text::new(random.pick(&dates.statuses()).as_bytes()),
        101 => {
            let width = random.pick(&[2, 2, 2, 3]);
            near_digits(random, width)
        }
        102 | 103 => near_kpp(random),
        104 => near_digits(random, 20),
        105 | 107 => near_digits(random, 8),
        106 if random.percent(50) => pair(random),
        106 => near_pair(random),
        108 if random.percent(40) => person(random),
        108 if random.percent(20) => near_snils(random),
        108 => near_document(random),
        109 if random.percent(40) => date(random),
        _ => near_date(random),
    }
}

/// Whether "0" is among the field's texts.
const fn has_zero(field: u8) -> bool {
    matches!(field, 22 | 60 | 102 | 104..=109)
}

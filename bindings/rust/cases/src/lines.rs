//! MT103 lines, laid out from R-6, and blocks near them.

use crate::random::Random;
use crate::texts::{Texts, FIELDS};

/// The fields whose texts stand in the lines, in the order of the lines.
pub const LINE_FIELDS: [u8; 7] = [101, 14, 15, 17, 61, 103, 22];

/// What stands ahead of each of these texts, and behind the last.
pub const MARKS: [&[u8]; 8] = [
    b":26T:S",
    b"\n:57D://RU",
    b".",
    b"\n:59:/",
    b"\nINN",
    b".KPP",
    b"\n:72:/UIP/",
    b"\n",
];

/// The lengths that lines of an accepted sheet have: 112 and those of field 22.
pub const LINE_LENGTHS: [usize; 4] = [113, 116, 132, 137];

/// The lines of an order's texts, whatever these are.
#[must_use]
pub fn lines_of(texts: &Texts) -> Vec<u8> {
    let mut block = Vec::new();
    for (mark, field) in MARKS.iter().zip(LINE_FIELDS) {
        block.extend_from_slice(mark);
        block.extend_from_slice(&texts.get(field));
    }
    block.extend_from_slice(MARKS[7]);
    block
}

/// The order with the seven texts of the lines alone, all others blank.
#[must_use]
pub fn of_lines(texts: &Texts) -> Texts {
    let others: Vec<u8> = FIELDS
        .into_iter()
        .filter(|field| !LINE_FIELDS.contains(field))
        .collect();
    texts.without(&others)
}

/// Bytes that stand in lines, or near what does.
const BYTES: &[u8] = b"0123456789AZ@[\n\r.:/SRUINKPTDs \0";

/// A block with something changed: bytes, lines, their ends, or what follows them.
pub fn damaged_block(random: &mut Random, block: Vec<u8>) -> Vec<u8> {
    match random.below(16) {
        0..6 => changed_bytes(random, block),
        6 | 7 => without_a_byte(random, block),
        8 | 9 => with_a_byte(random, block),
        10 | 11 => other_lines(random, &block),
        12 => ended_by(&block, random.pick(&[&b"\r\n"[..], b"\r\n", b"\r"])),
        13 => lower_case(random, block),
        14 => {
            let behind = random.pick(&[&b"\n"[..], b"-}", b" ", b"\0", b":72:/UIP/0\n"]);
            trailing(&block, behind)
        }
        _ => {
            let size = random.below(block.len() + 1);
            let size = random.pick(&[0, size, block.len().saturating_sub(1)]);
            block[..size].to_vec()
        }
    }
}

fn changed_bytes(random: &mut Random, mut block: Vec<u8>) -> Vec<u8> {
    for _ in 0..random.pick(&[1, 1, 1, 2, 3]) {
        let any = random.byte();
        let byte = random.pick(BYTES);
        if let Some(place) = place_in(random, &block) {
            block[place] = random.pick(&[byte, byte, byte, any]);
        }
    }
    block
}

/// One of the block's letters in lower case, or all of them.
fn lower_case(random: &mut Random, mut block: Vec<u8>) -> Vec<u8> {
    let letters = block.iter_mut().filter(|byte| byte.is_ascii_uppercase());
    let mut letters: Vec<&mut u8> = letters.collect();
    let one = random.below(letters.len() + 1);
    match letters.get_mut(one) {
        Some(letter) => letter.make_ascii_lowercase(),
        None => block.make_ascii_lowercase(),
    }
    block
}

fn without_a_byte(random: &mut Random, mut block: Vec<u8>) -> Vec<u8> {
    if let Some(place) = place_in(random, &block) {
        block.remove(place);
    }
    block
}

/// The block with one of its bytes doubled, or another put in.
fn with_a_byte(random: &mut Random, mut block: Vec<u8>) -> Vec<u8> {
    if let Some(place) = place_in(random, &block) {
        let byte = random.pick(BYTES);
        block.insert(place, random.pick(&[block[place], byte]));
    }
    block
}

fn place_in(random: &mut Random, block: &[u8]) -> Option<usize> {
    let last = block.len().checked_sub(1)?;
    let any = random.below(block.len());
    Some(random.pick(&[any, any, any, any, any, any, any, last]))
}

/// The block with a line missing, doubled or moved.
fn other_lines(random: &mut Random, block: &[u8]) -> Vec<u8> {
    let mut lines: Vec<&[u8]> = block.split_inclusive(|&byte| byte == b'\n').collect();
    if lines.is_empty() {
        return Vec::new();
    }
    let way = random.below(3);
    let place = random.below(lines.len());
    let line = match way {
        0 => lines[place],
        _ => lines.remove(place),
    };
    if way < 2 {
        lines.insert(random.below(lines.len() + 1), line);
    }
    lines.concat()
}

/// The block with its lines ended by this.
#[must_use]
pub fn ended_by(block: &[u8], end: &[u8]) -> Vec<u8> {
    let ended = |&byte: &u8| match byte {
        b'\n' => end.to_vec(),
        byte => vec![byte],
    };
    block.iter().flat_map(ended).collect()
}

/// The block with this behind it.
#[must_use]
pub fn trailing(block: &[u8], behind: &[u8]) -> Vec<u8> {
    [block, behind].concat()
}

#[cfg(test)]
mod tests {
    use super::*;

    const B: &[u8] = b":26T:S01
:57D://RU004525987.40102810845370000004
:59:/03100643000000014800
INN6730054024.KPP772801001
:72:/UIP/0
";

    #[test]
    fn the_lines_of_s() {
        assert_eq!(lines_of(&Texts::s()), B);
        assert_eq!(lines_of(&of_lines(&Texts::s())), B);
        assert_eq!(of_lines(&Texts::s()).get(60), Texts::BLANK.get(60));
        let others = MARKS.concat().len() + 2 + 9 + 20 + 20 + 10 + 9;
        assert_eq!(LINE_LENGTHS, [1, 4, 20, 25].map(|code| others + code));
    }

    #[test]
    fn damage() {
        assert_eq!(ended_by(b"a\nb\n", b"\r\n"), b"a\r\nb\r\n");
        assert_eq!(trailing(b"a\n", b"b"), b"a\nb");
        let random = &mut Random::new(6);
        let differ = |_: &i32| damaged_block(random, B.to_vec()) != B;
        assert!((0..1000).filter(differ).count() > 800);
        for _ in 0..100 {
            damaged_block(random, Vec::new());
        }
    }
}

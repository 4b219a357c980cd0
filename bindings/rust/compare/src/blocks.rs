//! MT103 lines: each call with what follows from it, and the cases that are gone through one
//! and all.

use cases::{class_a, ended_by, lines_of, of_lines, trailing, Dates, Random, Texts};
use cases::{ALL_STATUSES, LISTS, ORDER_DATE_MIN};

use crate::comparison::{same, Comparison, Difference, Lent};
use crate::library::Library;

type Outcome = Result<(), Difference>;

/// Writes the lines of a sheet. What is written are its lines, and reads back as the same
/// seven texts.
pub fn write<L: Library>(
    comparison: &mut Comparison<'_, L>,
    sheet: &[u8],
    dates: Dates,
    before: &Lent,
) -> Outcome {
    let (answer, buffer) = comparison.write_lines(sheet, dates, before)?;
    let Ok(length) = answer else {
        return Ok(());
    };
    let input = || "what was written".to_owned();
    let block = &buffer.bytes()[..length];
    let texts = Texts::of(sheet);
    same("write_lines", block, &lines_of(&texts)[..], input)?;
    let (answer, back) = comparison.read_lines(block, &Lent::filled(390, 0xEE))?;
    let expected = of_lines(&texts).sheet();
    same("read_lines", answer, Ok(()), input)?;
    same("read_lines", back.bytes(), &expected[..], input)
}

/// Reads a block. If it reads, it is what the lines of its seven texts are.
pub fn read<L: Library>(
    comparison: &mut Comparison<'_, L>,
    block: &[u8],
    before: &Lent,
) -> Outcome {
    let (answer, sheet) = comparison.read_lines(block, before)?;
    if answer.is_err() {
        return Ok(());
    }
    let input = || "what was read".to_owned();
    let texts = Texts::of(sheet.bytes());
    let expected = of_lines(&texts).sheet();
    same("read_lines", sheet.bytes(), &expected[..], input)?;
    same("read_lines", block, &lines_of(&texts)[..], input)
}

/// Reads a block into a sheet of the right size.
fn read_into_a_sheet<L: Library>(comparison: &mut Comparison<'_, L>, block: &[u8]) -> Outcome {
    read(comparison, block, &Lent::filled(390, 0xEE))
}

/// All: every byte of some blocks changed, dropped and doubled; their lines in every order,
/// missing, doubled, otherwise ended and mixed; buffers and sheets of every size that
/// matters; every place of a sheet; every status about its dates.
pub fn every<L: Library>(comparison: &mut Comparison<'_, L>, random: &mut Random) -> Outcome {
    let blocks: Vec<Vec<u8>> = orders().iter().map(lines_of).collect();
    for block in &blocks {
        bytes(comparison, block)?;
        lines(comparison, block)?;
        ends(comparison, block)?;
        sheet_sizes(comparison, block)?;
        for other in &blocks {
            mixed(comparison, block, other)?;
        }
    }
    for texts in others() {
        read_into_a_sheet(comparison, &lines_of(&texts))?;
    }
    buffer_sizes(comparison)?;
    places(comparison)?;
    dates(comparison, random)
}

/// Orders whose lines read: each length of a code, statuses and accounts that the reader
/// takes beside each other, and a KPP with letters.
fn orders() -> [Texts; 7] {
    let s = Texts::s();
    let enforcement = s.with(17, b"03212643000000014800").with(101, b"08");
    [
        s,
        enforcement.with(22, b"1234"),
        enforcement.with(22, &[b'1'; 20]),
        enforcement.with(22, &[b'1'; 25]),
        s.with(101, b"31"),
        s.with(101, b"02").with(17, b"03252643000000014800"),
        s.with(103, b"7728AB001"),
    ]
}

/// Every byte of a block with every value, dropped and doubled.
fn bytes<L: Library>(comparison: &mut Comparison<'_, L>, block: &[u8]) -> Outcome {
    for place in 0..block.len() {
        let mut changed = block.to_vec();
        for value in 0..=u8::MAX {
            changed[place] = value;
            read_into_a_sheet(comparison, &changed)?;
        }
        let (before, after) = block.split_at(place);
        read_into_a_sheet(comparison, &[before, &after[1..]].concat())?;
        read_into_a_sheet(comparison, &[before, &after[..1], after].concat())?;
    }
    Ok(())
}

fn split(block: &[u8]) -> Vec<&[u8]> {
    block.split_inclusive(|&byte| byte == b'\n').collect()
}

/// Every choice of up to five of the lines, each at most once, in every order; and one of
/// them doubled.
fn lines<L: Library>(comparison: &mut Comparison<'_, L>, block: &[u8]) -> Outcome {
    let lines = split(block);
    // As digits to the base 6: a line, or none.
    for number in 0..6_usize.pow(5) {
        let digits = [0, 1, 2, 3, 4].map(|place| number / 6_usize.pow(place) % 6);
        let times = |line| digits.iter().filter(|&&digit| digit == line).count();
        if (0..5).all(|line| times(line) <= 1) {
            let chosen: Vec<&[u8]> = digits
                .iter()
                .filter_map(|&line| lines.get(line).copied())
                .collect();
            read_into_a_sheet(comparison, &chosen.concat())?;
        }
    }
    for line in 0..5 {
        for place in 0..=5 {
            let mut doubled = lines.clone();
            doubled.insert(place, lines[line]);
            read_into_a_sheet(comparison, &doubled.concat())?;
        }
    }
    Ok(())
}

/// Lines ended otherwise, one of them or all; every part from the start and to the end; every
/// byte and more lines behind and ahead.
fn ends<L: Library>(comparison: &mut Comparison<'_, L>, block: &[u8]) -> Outcome {
    let lines = split(block);
    for end in [&b"\r\n"[..], b"\r", b"\n\r", b"\n\n", b" \n", b"\0", b""] {
        read_into_a_sheet(comparison, &ended_by(block, end))?;
        for place in 0..5 {
            let other = ended_by(lines[place], end);
            let mut changed = lines.clone();
            changed[place] = &other;
            read_into_a_sheet(comparison, &changed.concat())?;
        }
    }
    for place in 0..=block.len() {
        read_into_a_sheet(comparison, &block[..place])?;
        read_into_a_sheet(comparison, &block[place..])?;
        read_into_a_sheet(comparison, &trailing(block, &block[..place]))?;
    }
    for byte in 0..=u8::MAX {
        read_into_a_sheet(comparison, &trailing(block, &[byte]))?;
        read_into_a_sheet(comparison, &trailing(&[byte], block))?;
        read_into_a_sheet(comparison, &trailing(block, &[byte, b'\n']))?;
    }
    Ok(())
}

/// Every choice of the lines of two blocks, each in its place.
fn mixed<L: Library>(comparison: &mut Comparison<'_, L>, block: &[u8], other: &[u8]) -> Outcome {
    let (lines, others) = (split(block), split(other));
    for choice in 0..1 << 5 {
        let line = |place: usize| match choice >> place & 1 {
            0 => lines[place],
            _ => others[place],
        };
        read_into_a_sheet(comparison, &[0, 1, 2, 3, 4].map(line).concat())?;
    }
    Ok(())
}

/// A block that reads, and blocks that do not, into sheets of sizes about the right one.
fn sheet_sizes<L: Library>(comparison: &mut Comparison<'_, L>, block: &[u8]) -> Outcome {
    for size in [0, 1, 26, 364, 389, 390, 391, 416, 450, 780] {
        for block in [block, &block[1..], b"", b"\n\n\n\n\n"] {
            read(comparison, block, &Lent::filled(size, 0xEE))?;
        }
    }
    Ok(())
}

/// Orders that have no lines: malformed, with a broken rule, of class B and O, and these with
/// a broken rule.
fn others() -> [Texts; 9] {
    let s = Texts::s();
    let class_b = s.with(14, b"044525000").with(17, b"40503810000004000000");
    let ordinary = s.without(&[15, 101]);
    [
        s.with(61, b"0"),
        s.with(101, b"09"),
        s.with(14, &[b'0'; 26]),
        class_b,
        class_b.without(&[15]),
        class_b.with(61, b"0"),
        ordinary,
        ordinary.with(101, b"01"),
        Texts::BLANK,
    ]
}

/// Buffers of every size up to 200: for lines of each length, and for each refusal.
fn buffer_sizes<L: Library>(comparison: &mut Comparison<'_, L>) -> Outcome {
    let sheet = Texts::s().sheet();
    for size in 0..=200 {
        let before = Lent::filled(size, 0xEE);
        for texts in orders().iter().chain(&others()) {
            for dates in [Dates::PROGRAM, Dates::given(20230924)] {
                write(comparison, &texts.sheet(), dates, &before)?;
            }
        }
        for sheet in [&sheet[..389], &[&sheet[..], b"\0"].concat(), b""] {
            for dates in [Dates::PROGRAM, Dates::given(20230924)] {
                write(comparison, sheet, dates, &before)?;
            }
        }
    }
    Ok(())
}

/// Every place of S's sheet with every value.
fn places<L: Library>(comparison: &mut Comparison<'_, L>) -> Outcome {
    let before = Lent::filled(137, 0xEE);
    for place in 0..390 {
        let mut sheet = Texts::s().sheet();
        for value in 0..=u8::MAX {
            sheet[place] = value;
            write(comparison, &sheet, Dates::PROGRAM, &before)?;
        }
    }
    Ok(())
}

/// Ten orders with each status, at three dates with each of the eight lists; 02, 32 and 33 at
/// every number from the first of September 2023 to the last of February 2024 as the order's
/// date, and as their entry of the record.
fn dates<L: Library>(comparison: &mut Comparison<'_, L>, random: &mut Random) -> Outcome {
    let before = Lent::filled(137, 0xEE);
    for list in LISTS {
        for status in ALL_STATUSES {
            for order in [ORDER_DATE_MIN, 20231015, 20991231] {
                let dates = Dates::given(order).allowing(list);
                for _ in 0..10 {
                    let sheet = class_a(random, status).sheet();
                    write(comparison, &sheet, dates, &before)?;
                }
            }
        }
    }
    // In the order of the record's entries.
    let of_three = ["32", "33", "02"].map(|status| class_a(random, status).sheet());
    for number in 20230901..=20240229 {
        for (entry, sheet) in of_three.iter().enumerate() {
            write(comparison, sheet, Dates::given(number), &before)?;
            for order in [ORDER_DATE_MIN, 20231015, 20240101] {
                let dates = Dates::given(order).with_entry(entry, number);
                write(comparison, sheet, dates, &before)?;
            }
        }
    }
    Ok(())
}

//! An order as a person writes it, turned into messages, and these into a draft; and the
//! lines of values that are taken up from what is proposed to it.
//!
//! A line is `FIELD REVISION TEXT`, in UTF-8, with one space between the items.
//! The text is the rest of the line: it may contain spaces, and may be empty or
//! missing for a blank. Before the field may stand `client`: the line is then the
//! client's, in a message of version 2; all others are the adviser's, in messages of
//! version 1. Lines that are blank or begin with `#` are left out.

#![forbid(unsafe_code)]
#![warn(missing_docs)]

mod take;

use std::fmt;
use std::path::Path;

use kieselbrot::{words, Date, Draft, Gathered, Party, Refusal, Terms, Version};
use kieselbrot::{FIELDS, MESSAGE_MAX, TEXT_MAX};

pub use kieselbrot::windows1251;
pub use take::{take_up, Line};

/// As many bytes of messages as the program budgetorder reads.
pub const ORDER_MAX: usize = 32_768;

/// The order's date that the program budgetorder uses, with the record that R-7 gives.
pub const TERMS: Terms = Terms::given(Date(20240101));

/// What is wrong with a line.
#[derive(Clone, Debug, PartialEq, Eq)]
pub enum Mistake {
    /// The line is not UTF-8.
    NotUtf8,
    /// The first item, or the one behind the party, is not a listed field; so it was
    /// written.
    Field(String),
    /// The item behind the field is not a revision; so it was written.
    Revision(String),
    /// The text has a character that Windows-1251 does not have.
    Character(char),
    /// The text is too long; so many bytes.
    Long(usize),
    /// With this line the order is longer than the program reads.
    Order,
    /// The library refuses the line for another reason.
    Refused(Refusal),
}

impl fmt::Display for Mistake {
    fn fmt(&self, f: &mut fmt::Formatter<'_>) -> fmt::Result {
        match self {
            Self::NotUtf8 => write!(f, "the line is not UTF-8"),
            Self::Field(item) => {
                write!(f, "\"{item}\" is no field; the fields are")?;
                FIELDS.iter().try_for_each(|field| write!(f, " {field}"))
            }
            Self::Revision(item) if item.is_empty() => {
                write!(
                    f,
                    "the revision is missing; a line is FIELD REVISION TEXT, with or without \
                     \"client \" before it"
                )
            }
            Self::Revision(item) => {
                let highest = u32::MAX;
                write!(f, "\"{item}\" is no revision: a number from 1 to {highest}")
            }
            Self::Character(character) => {
                write!(
                    f,
                    "the text has {character:?}, which Windows-1251 does not have"
                )
            }
            Self::Long(length) => {
                write!(
                    f,
                    "the text has {length} characters; at most {TEXT_MAX} fit"
                )
            }
            Self::Order => write!(
                f,
                "with this line the order is longer than {ORDER_MAX} bytes"
            ),
            Self::Refused(refusal) => {
                let number = refusal.number();
                write!(f, "the library refuses the line: {number}")?;
                let why = words::message(*refusal);
                why.map_or(Ok(()), |why| write!(f, " ({why})"))
            }
        }
    }
}

/// A wrong line.
#[derive(Clone, Debug, PartialEq, Eq)]
pub struct WrongLine {
    /// Its number, from 1.
    pub number: usize,
    /// What is wrong with it.
    pub mistake: Mistake,
}

/// The wrong lines of a file, each with its number and what is wrong.
#[must_use]
pub fn shown(path: &Path, wrong: &[WrongLine]) -> String {
    let name = path.display();
    let lines: Vec<String> = wrong
        .iter()
        .map(|line| format!("{name}:{}: {}", line.number, line.mistake))
        .collect();
    lines.join("\n")
}

/// The listed field that an item writes.
///
/// # Errors
///
/// [`Mistake::Field`].
pub fn field(item: &str) -> Result<u8, Mistake> {
    let listed = number(item).and_then(|number| u8::try_from(number).ok());
    let listed = listed.filter(|number| FIELDS.contains(number));
    listed.ok_or_else(|| Mistake::Field(item.to_owned()))
}

/// The messages of an order, end to end.
///
/// # Errors
///
/// All wrong lines.
pub fn messages(order: &[u8]) -> Result<Vec<u8>, Vec<WrongLine>> {
    numbered_messages(order).map(|(messages, _)| messages)
}

/// The messages of an order, end to end, and the number of each one's line, from 1.
///
/// # Errors
///
/// All wrong lines.
pub fn numbered_messages(order: &[u8]) -> Result<(Vec<u8>, Vec<usize>), Vec<WrongLine>> {
    let order = order.strip_prefix(b"\xEF\xBB\xBF").unwrap_or(order);
    let mut messages = Vec::new();
    let mut lines = Vec::new();
    let mut wrong = Vec::new();
    for (number, line) in (1..).zip(order.split(|&byte| byte == b'\n')) {
        let line = line.strip_suffix(b"\r").unwrap_or(line);
        let before = messages.len();
        match add_line(line, &mut messages) {
            Ok(()) if messages.len() > before => lines.push(number),
            Ok(()) => (),
            Err(mistake) => wrong.push(WrongLine { number, mistake }),
        }
    }
    if wrong.is_empty() {
        Ok((messages, lines))
    } else {
        Err(wrong)
    }
}

/// What stands before the first space of a line, and what stands behind it.
fn item(line: &str) -> (&str, &str) {
    // Items are short: a search that takes one byte after another is the fastest.
    let space = line.bytes().position(|byte| byte == b' ');
    match space {
        Some(space) => (&line[..space], &line[space + 1..]),
        None => (line, ""),
    }
}

/// The version and party of a line, the item behind its party, and the rest.
fn party(line: &str) -> (Version, Party, &str, &str) {
    let (first, rest) = item(line);
    if Some(first) == words::party(Party::CLIENT) {
        let (first, rest) = item(rest);
        (Version::TWO, Party::CLIENT, first, rest)
    } else {
        (Version::ONE, Party::ADVISER, first, rest)
    }
}

/// Whether a line is left out: it is blank or begins with `#`.
#[must_use]
pub fn is_left_out(line: &str) -> bool {
    matches!(line.trim_start().chars().next(), None | Some('#'))
}

/// Adds a line's message; one that is left out has none.
fn add_line(line: &[u8], messages: &mut Vec<u8>) -> Result<(), Mistake> {
    let line = str::from_utf8(line).map_err(|_| Mistake::NotUtf8)?;
    if is_left_out(line) {
        return Ok(());
    }
    let mut buffer = [0; MESSAGE_MAX];
    let length = message(line, &mut buffer)?;
    if messages.len() + length > ORDER_MAX {
        return Err(Mistake::Order);
    }
    messages.extend(buffer.iter().take(length));
    Ok(())
}

/// Writes the message of a line that is not left out at the start of a buffer and tells
/// its size.
///
/// # Errors
///
/// What is wrong with the line.
#[inline]
pub fn message(line: &str, buffer: &mut [u8; MESSAGE_MAX]) -> Result<usize, Mistake> {
    let (version, party, field, rest) = party(line);
    let (revision, text) = item(rest);
    let wrong_field = || Mistake::Field(field.to_owned());
    let wrong_revision = || Mistake::Revision(revision.to_owned());
    let number = number(field).and_then(|number| u8::try_from(number).ok());
    let number = number.ok_or_else(wrong_field)?;
    let given = self::number(revision).ok_or_else(wrong_revision)?;
    // One more byte than a text may have, for the library to refuse it.
    let mut bytes = [0; TEXT_MAX + 1];
    let length = windows1251::encode(text, &mut bytes).map_err(Mistake::Character)?;
    let bytes = &bytes[..length.min(TEXT_MAX + 1)];

    let written = kieselbrot::write(version, party, number, given, bytes, buffer);
    written.map_err(|refusal| match refusal {
        Refusal::Length => Mistake::Long(length),
        Refusal::UnknownField => wrong_field(),
        Refusal::RevisionZero => wrong_revision(),
        _ => Mistake::Refused(refusal),
    })
}

/// The number that digits alone write.
fn number(digits: &str) -> Option<u32> {
    let plain = digits.bytes().all(|byte| byte.is_ascii_digit());
    plain.then(|| digits.parse().ok())?
}

/// The draft that budgetorder completes: messages end to end, posted one after
/// another to a fresh draft. One that is refused changes nothing; after a wrong
/// length nothing more is read.
#[must_use]
pub fn draft(messages: &[u8]) -> Draft {
    Gathered::new(messages).draft
}

#[cfg(test)]
mod tests {
    use super::*;

    fn mistakes(order: &str) -> Vec<(usize, Mistake)> {
        let wrong = messages(order.as_bytes()).expect_err("a wrong line");
        wrong
            .into_iter()
            .map(|line| (line.number, line.mistake))
            .collect()
    }

    #[test]
    fn lines_become_messages() {
        let order = "# a comment\n\n14 1 0045\n106 258 ТД\r\n109 2\n108 3 \n22 4  a b \n";
        let expected = [
            &b"\x00\x0A\x01\x0E\x00\x00\x00\x010045"[..],
            b"\x00\x08\x01\x6A\x00\x00\x01\x02\xD2\xC4",
            b"\x00\x06\x01\x6D\x00\x00\x00\x02",
            b"\x00\x06\x01\x6C\x00\x00\x00\x03",
            b"\x00\x0B\x01\x16\x00\x00\x00\x04 a b ",
        ];
        assert_eq!(messages(order.as_bytes()), Ok(expected.concat()));
        assert_eq!(messages(b""), Ok(vec![]));
        let numbered = numbered_messages(order.as_bytes());
        assert_eq!(numbered.map(|(_, lines)| lines), Ok(vec![3, 4, 5, 6, 7]));
        let marked = b"\xEF\xBB\xBF14 1";
        assert_eq!(messages(marked), Ok(b"\0\x06\x01\x0E\0\0\0\x01".to_vec()));
    }

    #[test]
    fn lines_of_the_client() {
        let order = "client 108 1 17\n108 1 18\nclient 109 2\nclient 106 258 ТД\r\n\
                     client 22 4  a b \n";
        let expected = [
            &b"\x00\x09\x02\x01\x6C\x00\x00\x00\x0117"[..],
            b"\x00\x08\x01\x6C\x00\x00\x00\x0118",
            b"\x00\x07\x02\x01\x6D\x00\x00\x00\x02",
            b"\x00\x09\x02\x01\x6A\x00\x00\x01\x02\xD2\xC4",
            b"\x00\x0C\x02\x01\x16\x00\x00\x00\x04 a b ",
        ];
        assert_eq!(messages(order.as_bytes()), Ok(expected.concat()));
    }

    #[test]
    fn wrong_lines_of_the_client() {
        let order = "client 108 1 17\nclient\nclient \nclient 16 1 x\nclient 108\n\
                     client 108 0 17\nclient  108 1 17\nClient 108 1 17\nadviser 108 1 17\n\
                     client client 108 1 17\n";
        let field = |item: &str| Mistake::Field(item.into());
        let revision = |item: &str| Mistake::Revision(item.into());
        let expected = vec![
            (2, field("")),
            (3, field("")),
            (4, field("16")),
            (5, revision("")),
            (6, revision("0")),
            (7, field("")),
            (8, field("Client")),
            (9, field("adviser")),
            (10, field("client")),
        ];
        assert_eq!(mistakes(order), expected);
        let long = format!(
            "client 22 1 {}\nclient 22 2 {}",
            "7".repeat(25),
            "7".repeat(26)
        );
        assert_eq!(mistakes(&long), [(2, Mistake::Long(26))]);
    }

    #[test]
    fn a_refused_line_has_words() {
        let shown = Mistake::Refused(Refusal::UnknownParty).to_string();
        let expected = "the library refuses the line: 13 (the message's party is neither ";
        assert!(shown.starts_with(expected), "{shown}");
        let shown = Mistake::Refused(Refusal::Output).to_string();
        assert_eq!(shown, "the library refuses the line: 7");
    }

    #[test]
    fn wrong_lines_are_named_all() {
        let order = "14 1 1\n16 1 1\n300 1 1\nx\n14\n14 0 1\n14 4294967296 1\n14 +1 1\n14  1 1\n";
        let field = |item: &str| Mistake::Field(item.into());
        let revision = |item: &str| Mistake::Revision(item.into());
        let expected = vec![
            (2, field("16")),
            (3, field("300")),
            (4, field("x")),
            (5, revision("")),
            (6, revision("0")),
            (7, revision("4294967296")),
            (8, revision("+1")),
            (9, revision("")),
        ];
        assert_eq!(mistakes(order), expected);
    }

    #[test]
    fn wrong_texts() {
        let long = format!("22 1 {}\n22 2 {}", "7".repeat(25), "Ж".repeat(26));
        assert_eq!(mistakes(&long), [(2, Mistake::Long(26))]);
        assert_eq!(mistakes("108 1 漢"), [(1, Mistake::Character('漢'))]);
        let not_utf8 = messages(b"14 1 1\n106 1 \xD2\xC4\n");
        let wrong = WrongLine {
            number: 2,
            mistake: Mistake::NotUtf8,
        };
        assert_eq!(not_utf8, Err(vec![wrong]));
    }

    #[test]
    fn an_order_is_no_longer_than_the_program_reads() {
        let full = "22 1\n".repeat(4096);
        assert_eq!(
            messages(full.as_bytes()).map(|all| all.len()),
            Ok(ORDER_MAX)
        );
        assert_eq!(mistakes(&(full + "22 1")), [(4097, Mistake::Order)]);
        // Nine bytes each in version 2: 8 are left.
        let most = "client 22 1\n".repeat(3640);
        assert_eq!(
            messages((most.clone() + "22 1").as_bytes()).map(|all| all.len()),
            Ok(ORDER_MAX)
        );
        assert_eq!(mistakes(&(most + "client 22 1")), [(3641, Mistake::Order)]);
    }

    #[test]
    fn messages_are_posted_as_the_program_does() {
        let texts = |messages: &[u8]| {
            let mut sheet = [0; kieselbrot::SHEET_SIZE];
            kieselbrot::copy(&draft(messages), &mut sheet).expect("a draft");
            let text = |slot: usize| sheet[26 * slot + 1..][..4].to_vec();
            (text(0), text(1))
        };
        let bik = |revision: u8, text: &[u8; 4]| {
            let head = [0, 10, 1, 14, 0, 0, 0, revision];
            [&head[..], text].concat()
        };
        let bank = b"\x00\x0A\x01\x0F\x00\x00\x00\x011234";
        let (none, first, second) = (vec![0; 4], b"0045".to_vec(), b"1234".to_vec());
        assert_eq!(texts(b""), (none.clone(), none.clone()));
        // A clash is refused, and what comes after it is read.
        let clash = [&bik(2, b"0045")[..], &bik(2, b"0046"), bank].concat();
        assert_eq!(texts(&clash), (first.clone(), second));
        // After a wrong length nothing is.
        let wrong = [&bik(2, b"0045")[..], b"\x00\x01\x01", bank].concat();
        assert_eq!(texts(&wrong), (first.clone(), none.clone()));
        for rest in [&b"\x00"[..], b"\x00\x0A\x01\x0F"] {
            assert_eq!(
                texts(&[&bik(2, b"0045"), rest].concat()),
                (first.clone(), none.clone())
            );
        }
    }
}

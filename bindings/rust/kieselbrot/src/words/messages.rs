//! What became of messages, and where the texts of an order come from.

use super::shown::{quoted, visible};
use super::{capital, explanation, field, message, party, with_name};
use crate::{Gathered, Message, Party, Posted, Posting, Refusal, Terms, FIELDS};

/// As many bytes of a message that does not read are shown.
const BYTES_SHOWN: usize = 16;

/// Where a text comes from: the message's number, the number of its line, where there are
/// lines, its revision, and who wrote it.
#[derive(Clone, Copy)]
struct Source {
    number: usize,
    line: Option<usize>,
    revision: u32,
    party: Party,
}

impl Source {
    fn new(number: usize, message: &Message<'_>, lines: &[usize]) -> Self {
        Self {
            number,
            line: line_of(number, lines),
            revision: message.revision,
            party: message.party,
        }
    }

    /// The message, its revision and its party.
    fn shown(&self) -> String {
        format!(
            "{}, {}",
            called(self.number, self.line),
            given_by(self.revision, self.party)
        )
    }
}

/// The line of a message, where there are lines.
fn line_of(number: usize, lines: &[usize]) -> Option<usize> {
    lines.get(number.checked_sub(1)?).copied()
}

/// A message, by its line where there are lines.
fn called(number: usize, line: Option<usize>) -> String {
    match line {
        Some(line) => format!("line {line} (message {number})"),
        None => format!("message {number}"),
    }
}

fn given_by(revision: u32, by: Party) -> String {
    let by = party(by).unwrap_or("unknown party");
    format!("revision {revision}, {by}")
}

/// Two messages that clash (6), called so, with the text that stands and the other: what became
/// of them, and what to ask.
#[must_use]
pub fn clash(
    who: &str,
    field: u8,
    revision: u32,
    by: Party,
    [stands, other]: [&[u8]; 2],
) -> String {
    format!(
        "{who} clash in field {}, {}: {} stands, {} does not count. Ask which is right.",
        with_name(field),
        given_by(revision, by),
        quoted(field, stands),
        quoted(field, other)
    )
}

/// The messages of an input that clash or don't read, and what was left unread, a sentence for
/// each. `lines` has the line of each message, if there are lines.
#[must_use]
pub fn flaws(gathered: &Gathered<'_>, lines: &[usize]) -> Vec<String> {
    let postings = gathered.postings.iter();
    let mut flaws: Vec<String> = postings
        .filter_map(|posting| match posting.answer {
            Ok(_) => None,
            Err(Refusal::Clash) => clashing(gathered, posting, lines),
            Err(refusal) => Some(unreadable(posting, refusal, lines)),
        })
        .collect();
    match gathered.unread {
        0 => (),
        1 => flaws.push("1 byte behind it is left unread.".to_owned()),
        unread => flaws.push(format!("{unread} bytes behind it are left unread.")),
    }
    flaws
}

fn clashing(gathered: &Gathered<'_>, posting: &Posting<'_>, lines: &[usize]) -> Option<String> {
    let refused = gathered.message(posting.number)?;
    let held = posting.held?;
    let stands = gathered.message(held)?;
    let number = posting.number;
    let who = match (line_of(held, lines), line_of(number, lines)) {
        (Some(first), Some(line)) => {
            format!("Lines {first} and {line} (messages {held} and {number})")
        }
        _ => format!("Messages {held} and {number}"),
    };
    Some(clash(
        &who,
        refused.field,
        refused.revision,
        refused.party,
        [stands.text, refused.text],
    ))
}

fn unreadable(posting: &Posting<'_>, refusal: Refusal, lines: &[usize]) -> String {
    let who = capital(&called(posting.number, line_of(posting.number, lines)));
    let why = message(refusal).unwrap_or("the library refuses it");
    let shown = posting.bytes.iter().take(BYTES_SHOWN);
    let bytes: Vec<String> = shown.map(|byte| format!("{byte:02X}")).collect();
    let more = match posting.bytes.len() > BYTES_SHOWN {
        true => " ..",
        false => "",
    };
    format!(
        "{who} does not read ({}): {why}. Its bytes: {}{more}.",
        refusal.number(),
        bytes.join(" ")
    )
}

/// The messages of an input that change nothing, older or the same, each with the one that
/// stood then: a sentence for each. `lines` has the line of each message, if there are lines.
#[must_use]
pub fn late(gathered: &Gathered<'_>, lines: &[usize]) -> Vec<String> {
    let sentence = |posting: &Posting<'_>| {
        let posted = posting
            .answer
            .ok()
            .filter(|posted| *posted != Posted::Newer)?;
        let message = gathered.message(posting.number)?;
        let held = posting.held?;
        let stood = gathered.message(held)?;
        let who = Source::new(posting.number, &message, lines);
        let stood = Source::new(held, &stood, lines);
        Some(match posted {
            Posted::Same => format!(
                "{} is the same as {}.",
                capital(&called(who.number, who.line)),
                called(stood.number, stood.line)
            ),
            _ => format!(
                "{}, {} in field {}, is older than {}, and does not count.",
                capital(&who.shown()),
                quoted(message.field, message.text),
                with_name(message.field),
                stood.shown()
            ),
        })
    };
    gathered.postings.iter().filter_map(sentence).collect()
}

/// Where a field's text comes from.
fn from(is_proposed: bool, is_blank: bool, source: Option<Source>) -> String {
    let message = source.map(|source| source.shown());
    match (is_proposed, is_blank, message) {
        (true, _, None) => "proposed".to_owned(),
        (true, _, Some(message)) => format!("proposed; blank by {message}"),
        (false, true, None) => "blank".to_owned(),
        (false, true, Some(message)) => format!("blank by {message}"),
        (false, false, message) => message.unwrap_or_default(),
    }
}

/// A line of the table of fields; the table begins with that of no field.
fn table_line(number: Option<u8>, text: &[u8], from: &str) -> String {
    let (number, name, text, from) = match number {
        Some(number) => (
            number.to_string(),
            field(number).unwrap_or_default(),
            visible(text),
            from,
        ),
        None => ("field".to_owned(), "name", "text".to_owned(), "from"),
    };
    format!("{number:>5}  {name:17}  {text:25}  {from}")
}

/// The table of the fifteen fields of an order with this date, completed where it can be: a
/// line for each with its number, name, text, and where that comes from, below a head. `lines`
/// has the line of each message, if there are lines.
#[must_use]
pub fn table(gathered: &Gathered<'_>, lines: &[usize], terms: Terms) -> Vec<String> {
    let (sheet, set) = match gathered.draft.complete(terms) {
        Ok((sheet, completed)) => (sheet, completed.set),
        // A draft that was gathered is well-formed.
        Err(_) => (gathered.draft.sheet().unwrap_or_default(), 0),
    };
    let line = |(slot, field): (usize, u8)| {
        let text = sheet.text(field);
        let origin = gathered.origin(slot);
        let source = origin.map(|(number, message)| Source::new(number, &message, lines));
        let from = from(set >> slot & 1 == 1, text.is_empty(), source);
        table_line(Some(field), text, &from)
    };
    let head = table_line(None, &[], "");
    let fields = FIELDS.into_iter().enumerate().map(line);
    [head].into_iter().chain(fields).collect()
}

/// All that is told of an input of messages: what is wrong with them, what changes nothing,
/// the answer of completing them in an order with this date, and where its texts come from.
/// Lines parted by `\n`, none at the end. `lines` has the line of each message, if there are
/// lines.
#[must_use]
pub fn order(input: &[u8], lines: &[usize], terms: Terms) -> String {
    let gathered = Gathered::new(input);
    let parts = [
        flaws(&gathered, lines).join("\n"),
        late(&gathered, lines).join("\n"),
        explanation(&gathered.draft, terms),
        table(&gathered, lines, terms).join("\n"),
    ];
    let told: Vec<String> = parts.into_iter().filter(|part| !part.is_empty()).collect();
    told.join("\n\n")
}

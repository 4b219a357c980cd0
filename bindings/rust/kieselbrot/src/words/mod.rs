//! Rules, fields, parties, the answer of a completion with all causes, what became of
//! messages, why a value can't be taken up, why MT103 lines can't be written or read and why a
//! message is refused, in words, for people.
//!
//! The library decides; this module says it in English. It is not proved. Unlike
//! the functions of the library it allocates.

mod answer;
mod messages;
mod shown;
mod table;

use crate::slots::list;
use crate::windows1251;
use crate::{Draft, Entry, Party, Refusal, Sheet, Terms};
use crate::{LINES_BLOCK_MAX, ORDER_DATE_MIN, SHEET_SIZE};

pub use answer::{broken, explanation};
pub use messages::{clash, flaws, late, order, table};
pub use shown::{quoted, visible};

/// What a rule wants, 1 to 35, of an order with this date: a sentence without its full
/// stop. Rules 10 and 19 name the statuses that the date allows.
#[must_use]
pub fn rule(number: u8, terms: Terms) -> Option<String> {
    Wording::new(terms).rule(number)
}

/// The name of a listed field.
#[must_use]
pub const fn field(number: u8) -> Option<&'static str> {
    table::field_name(number)
}

/// The name of a known party.
#[must_use]
pub const fn party(party: Party) -> Option<&'static str> {
    table::party(party.0)
}

/// What is wrong with a message that [`read`](crate::read), [`write`](crate::write) or
/// [`post`](crate::post) refuses for itself: a sentence without its full stop. The other
/// refusals have none.
#[must_use]
pub const fn message(refusal: Refusal) -> Option<&'static str> {
    match refusal {
        Refusal::Length
        | Refusal::UnknownVersion
        | Refusal::UnknownParty
        | Refusal::UnknownField
        | Refusal::RevisionZero
        | Refusal::Clash => self::refusal(refusal.number()),
        _ => None,
    }
}

/// What the number of a refusal says: a sentence without its full stop. [`Refusal`]'s
/// `Display` adds the values that came with it.
#[must_use]
pub const fn refusal(number: u8) -> Option<&'static str> {
    table::refusal(number)
}

/// Why values of this sheet can't be taken up to this draft, where
/// [`take_up`](crate::take_up) refuses it so: a sentence.
#[must_use]
pub fn not_taken_up(draft: &[u8], sheet: &[u8], refusal: Refusal) -> String {
    match refusal {
        Refusal::Malformed => {
            "The draft or the proposed sheet is malformed: it can't be read as an order.".to_owned()
        }
        Refusal::Output => format!("The proposed sheet must have {SHEET_SIZE} bytes."),
        Refusal::NotTakenUp { field: 0 } => "Bit 15 of the set is no field's.".to_owned(),
        Refusal::NotTakenUp { field } => format!(
            "Field {} can't take up a value: {}.",
            with_name(field),
            why_not(draft, sheet, field)
        ),
        _ => format!(
            "The linked library is another one: taking up never answers {}.",
            refusal.numbers()
        ),
    }
}

/// What keeps a field from taking up its value: the first cause.
fn why_not(draft: &[u8], sheet: &[u8], field: u8) -> &'static str {
    let Ok((draft, given)) = Draft::try_from(draft).and_then(|draft| Ok((draft, draft.sheet()?)))
    else {
        return "the draft is malformed";
    };
    let is_blank = |sheet: &Sheet| sheet.text(field).is_empty();
    if list(field, Terms::given(ORDER_DATE_MIN)).is_empty() {
        "nothing is ever proposed for it"
    } else if !is_blank(&given) {
        "it is given already"
    } else if Sheet::try_from(sheet).is_ok_and(|sheet| is_blank(&sheet)) {
        "the proposed sheet has none for it"
    } else if draft.revision(field) == u32::MAX {
        "its revision is the greatest, so that none can follow"
    } else {
        "the reason is not known"
    }
}

/// Why the MT103 lines of an order with this date can't be written, where
/// [`write_lines`](crate::write_lines) refuses them so: a sentence.
#[must_use]
pub fn lines_not_written(refusal: Refusal, terms: Terms) -> String {
    match refusal {
        Refusal::Malformed => "This sheet is malformed: it can't be read as an order.".to_owned(),
        Refusal::Undated => undated(),
        Refusal::Broken { field, rule } => format!(
            "No lines are written of this order: rule {rule} is broken in field {}: {}.",
            with_name(field),
            Wording::new(terms).rule_text(rule)
        ),
        Refusal::NoLines => "This order has no MT103 lines: it is no budget payment to an account \
                             at the treasury."
            .to_owned(),
        Refusal::Output => format!(
            "The buffer is shorter than the lines: {LINES_BLOCK_MAX} bytes are enough for any."
        ),
        _ => format!(
            "The linked library is another one: writing lines never answers {}.",
            refusal.numbers()
        ),
    }
}

/// Why a block can't be read as MT103 lines, where [`read_lines`](crate::read_lines) refuses
/// it so: a sentence.
#[must_use]
pub fn lines_not_read(refusal: Refusal) -> String {
    match refusal {
        Refusal::Output => format!("The sheet must have {SHEET_SIZE} bytes."),
        Refusal::NoLines => "This block is not the MT103 lines of a budget payment to an account \
                             at the treasury."
            .to_owned(),
        _ => format!(
            "The linked library is another one: reading lines never answers {}.",
            refusal.numbers()
        ),
    }
}

/// What is wrong with dates: a sentence.
fn undated() -> String {
    sentence(Refusal::Undated)
}

/// A refusal as a whole sentence.
fn sentence(refusal: Refusal) -> String {
    format!("{}.", capital(&refusal.to_string()))
}

/// The same with a capital at the start of a sentence.
fn capital(words: &str) -> String {
    let mut characters = words.chars();
    let first = characters.next().map(|first| first.to_ascii_uppercase());
    first.into_iter().chain(characters).collect()
}

/// What words are by: the order's date, the record, and the statuses that are allowed.
struct Wording {
    terms: Terms,
    /// None if the dates are refused.
    statuses: Vec<String>,
}

impl Wording {
    fn new(terms: Terms) -> Self {
        let statuses = list(101, terms);
        Self {
            terms,
            statuses: statuses.iter().map(shown_entry).collect(),
        }
    }

    fn rule(&self, number: u8) -> Option<String> {
        let text = table::rule(number)?;
        Some(match number {
            10 if self.statuses.is_empty() => {
                text.replace(table::LIST, "those that the date allows")
            }
            10 => text.replace(table::LIST, &self.statuses.join(", ")),
            19 => text.replace(table::LIST, &self.treasury()),
            _ => text.to_owned(),
        })
    }

    /// Rule 19's statuses that are allowed; all of them if the dates are refused.
    fn treasury(&self) -> String {
        let is_allowed = |status: &&str| {
            self.statuses.is_empty() || self.statuses.iter().any(|allowed| allowed == status)
        };
        let treasury = table::treasury().iter().copied();
        let treasury: Vec<&str> = treasury.filter(is_allowed).collect();
        shown::or(&treasury)
    }

    fn rule_text(&self, number: u8) -> String {
        let text = self.rule(number);
        text.unwrap_or_else(|| "no rule has this number".to_owned())
    }
}

/// An entry's text.
fn shown_entry(entry: &Entry) -> String {
    windows1251::text(entry)
}

/// A field's number with its name.
pub(crate) fn with_name(number: u8) -> String {
    format!("{number} ({})", field(number).unwrap_or("not listed"))
}

/// A number with a comma before each three digits.
fn thousands(number: usize) -> String {
    match number {
        0..1000 => number.to_string(),
        _ => format!("{},{:03}", thousands(number / 1000), number % 1000),
    }
}

#[cfg(test)]
mod tests {
    use super::*;
    use crate::Date;

    #[test]
    fn numbers_have_commas() {
        let shown = [0, 1, 48, 999, 1000, 1056, 1_000_001].map(thousands);
        let expected = ["0", "1", "48", "999", "1,000", "1,056", "1,000,001"];
        assert_eq!(shown, expected);
    }

    #[test]
    fn strange_answers_have_words() {
        let refusal = Refusal::Unknown { number: 77 };
        let taken_up = not_taken_up(&[], &[], refusal);
        assert!(taken_up.ends_with("taking up never answers 77."));
        let written = lines_not_written(refusal, Terms::given(Date(20240101)));
        assert!(written.ends_with("writing lines never answers 77."));
        assert!(lines_not_read(refusal).ends_with("reading lines never answers 77."));
        let of_a_message = not_taken_up(&[], &[], Refusal::UnknownParty);
        assert!(of_a_message.ends_with("taking up never answers 13."));
    }

    #[test]
    fn parties_and_refused_messages_have_words() {
        assert_eq!(party(Party::CLIENT), Some("client"));
        assert_eq!(party(Party::ADVISER), Some("adviser"));
        assert_eq!([Party(0), Party(3)].map(party), [None; 2]);
        let words = message(Refusal::UnknownParty).expect("words for 13");
        assert!(words.contains("neither the client nor the adviser"));
        let of_messages = [
            Refusal::Length,
            Refusal::UnknownVersion,
            Refusal::UnknownField,
            Refusal::RevisionZero,
            Refusal::Clash,
        ];
        assert!(of_messages
            .into_iter()
            .all(|refusal| message(refusal).is_some()));
        for refusal in [Refusal::Malformed, Refusal::Output, Refusal::Ordinary] {
            assert_eq!(message(refusal), None);
        }
    }
}

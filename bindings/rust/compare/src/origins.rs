//! Which message each slot ends with: what was reached, and lists that are gone through.

use std::fmt;

use cases::{message_2, FIELDS, PARTIES};
use kieselbrot::Refusal;

use crate::comparison::{Comparison, Difference};
use crate::library::{Library, Reference};

type Outcome = Result<(), Difference>;

/// What an input reached.
#[derive(Clone, Copy, Debug, PartialEq, Eq, PartialOrd, Ord)]
pub enum Origin {
    /// There is no message, one, more than fifteen.
    Empty,
    One,
    Many,
    /// A slot holds none, the first message, the last of several.
    None,
    First,
    Last,
    /// A slot holds the first of equals with the same text, with another text.
    FirstOfSame,
    FirstOfClashing,
    /// A slot holds the adviser's over the client's of the same revision: before it, after it.
    AdviserBefore,
    AdviserAfter,
    /// A slot holds a message behind a refused one.
    BehindRefused,
    /// Nothing is read behind a 2; the last message is cut off.
    Stopped,
    CutOff,
}

const ALL: [Origin; 13] = [
    Origin::Empty,
    Origin::One,
    Origin::Many,
    Origin::None,
    Origin::First,
    Origin::Last,
    Origin::FirstOfSame,
    Origin::FirstOfClashing,
    Origin::AdviserBefore,
    Origin::AdviserAfter,
    Origin::BehindRefused,
    Origin::Stopped,
    Origin::CutOff,
];

impl fmt::Display for Origin {
    fn fmt(&self, f: &mut fmt::Formatter<'_>) -> fmt::Result {
        write!(f, "{self:?}")
    }
}

pub fn all() -> impl Iterator<Item = Origin> {
    ALL.into_iter()
}

/// The messages of an input, up to one that is refused with 2.
fn messages(input: &[u8]) -> Vec<&[u8]> {
    let mut list = Vec::new();
    let mut rest = input;
    while !rest.is_empty() {
        let size = match *rest {
            [high, low, ..] => 2 + usize::from(high) * 256 + usize::from(low),
            _ => rest.len(),
        };
        let (message, behind) = rest.split_at(size.min(rest.len()));
        list.push(message);
        if Reference.read(message) == Err(Refusal::Length) {
            break;
        }
        rest = behind;
    }
    list
}

/// What an input reached, by its origins.
pub fn reached(input: &[u8], origins: &[u64; FIELDS.len()]) -> Vec<Origin> {
    let list = messages(input);
    let size: usize = list.iter().map(|message| message.len()).sum();
    let mut reached = match list.len() {
        0 => vec![Origin::Empty],
        1 => vec![Origin::One],
        16.. => vec![Origin::Many],
        _ => Vec::new(),
    };
    if size < input.len() {
        reached.push(Origin::Stopped);
    }
    if list.last().is_some_and(|last| is_cut(last)) {
        reached.push(Origin::CutOff);
    }
    for &origin in origins {
        match origin {
            0 => reached.push(Origin::None),
            1 => reached.push(Origin::First),
            _ => {}
        }
        let Some(place) = origin.checked_sub(1) else {
            continue;
        };
        if list.len() > 1 && origin == list.len() as u64 {
            reached.push(Origin::Last);
        }
        held(&list, place as usize, &mut reached);
    }
    reached
}

fn is_cut(message: &[u8]) -> bool {
    match *message {
        [high, low, ref rest @ ..] => rest.len() < usize::from(high) * 256 + usize::from(low),
        _ => true,
    }
}

/// What the message at a place, which a slot holds, stands beside.
fn held(list: &[&[u8]], place: usize, reached: &mut Vec<Origin>) {
    let Ok(own) = Reference.read(list[place]) else {
        return;
    };
    for (at, message) in list.iter().enumerate() {
        let message = match Reference.read(message) {
            Ok(message) if message.field == own.field && message.revision == own.revision => {
                message
            }
            Err(_) if at < place => {
                reached.push(Origin::BehindRefused);
                continue;
            }
            _ => continue,
        };
        reached.extend(match (message.party == own.party, at > place) {
            (true, true) if message.text == own.text => Some(Origin::FirstOfSame),
            (true, true) => Some(Origin::FirstOfClashing),
            (false, true) => Some(Origin::AdviserBefore),
            (false, false) => Some(Origin::AdviserAfter),
            (true, false) => None,
        });
    }
}

/// The origins of every list of up to four messages of both parties, with equal revisions,
/// other texts, unreadable messages and one that is refused with 2 among them; each cut off.
pub fn every_list<L: Library>(comparison: &mut Comparison<'_, L>) -> Outcome {
    let mut letters = Vec::new();
    for party in PARTIES {
        letters.push(message_2(party, 109, 1, b"0"));
        for (revision, text) in [(1, b"17"), (2, b"17"), (2, b"18")] {
            letters.push(message_2(party, 108, revision, text));
        }
    }
    letters.push(message_2(3, 108, 3, b"17"));
    letters.push(message_2(PARTIES[0], 107, 0, b"17"));
    letters.push(vec![0, 1, 1]);
    comparison.origins(&[])?;
    for size in 1..=4 {
        for number in 0..letters.len().pow(size) {
            let letter = |place| number / letters.len().pow(place) % letters.len();
            let list = (0..size).map(|place| &letters[letter(place)][..]);
            let input: Vec<u8> = list.collect::<Vec<_>>().concat();
            comparison.origins(&input)?;
            comparison.origins(&input[..input.len() - 1])?;
        }
    }
    let all: Vec<u8> = letters[..8].concat().repeat(3);
    comparison.origins(&all)
}

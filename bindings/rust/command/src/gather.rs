//! The messages of an order, gathered in a draft.

use kieselbrot::{words, Draft, Message, Party, Refusal, FIELDS, MESSAGE_MAX};
use order::{windows1251, Mistake, WrongLine};

use crate::input::Input;

/// A message, as it is told of.
#[derive(Clone, Debug, PartialEq, Eq)]
pub struct Origin {
    /// The number of its line, from 1.
    pub line: usize,
    /// Its own number among the readable ones, from 1.
    pub number: usize,
    /// Its field.
    pub field: u8,
    /// Its revision.
    pub revision: u32,
    /// Who wrote it.
    pub party: Party,
    /// Its text.
    pub text: String,
}

impl Origin {
    fn new(line: usize, number: usize, message: &Message<'_>) -> Self {
        Self {
            line,
            number,
            field: message.field,
            revision: message.revision,
            party: message.party,
            text: windows1251::text(message.text),
        }
    }
}

/// Two messages of one field, revision and party with different texts (answer 6).
#[derive(Debug, PartialEq, Eq)]
pub struct Clash {
    /// The one that was there when the other came.
    pub held: Origin,
    /// The one that was refused.
    pub refused: Origin,
}

/// What the lines of an order come to.
pub struct Gathered {
    /// The messages, end to end.
    pub bytes: Vec<u8>,
    /// The line of each message.
    pub lines: Vec<usize>,
    /// The draft that they leave.
    pub draft: Draft,
    /// What each slot comes from.
    pub origins: [Option<Origin>; FIELDS.len()],
    /// The clashes, in the order of arrival.
    pub clashes: Vec<Clash>,
    /// The same in words.
    pub clashing: Vec<String>,
    /// The messages that are older or the same, in words.
    pub late: Vec<String>,
    /// The lines that don't read.
    pub unread: Vec<WrongLine>,
}

/// Posts the lines of an order to a fresh draft, those that don't read left out.
pub fn gather(input: &Input) -> Gathered {
    let (mut bytes, mut lines) = (Vec::new(), Vec::new());
    let mut unread = Vec::new();
    for (number, line) in input.lines() {
        let mut buffer = [0; MESSAGE_MAX];
        match message(line, &mut buffer) {
            Ok(None) => (),
            Ok(Some(message)) => {
                bytes.extend_from_slice(message);
                lines.push(number);
            }
            Err(mistake) => unread.push(WrongLine { number, mistake }),
        }
    }
    let posted = kieselbrot::Gathered::new(&bytes);
    let line = |number: usize| number.checked_sub(1).and_then(|place| lines.get(place));
    let origin = |number: usize| {
        let message = posted.message(number)?;
        Some(Origin::new(*line(number)?, number, &message))
    };
    let mut clashes = Vec::new();
    for posting in &posted.postings {
        match posting.answer {
            Ok(_) => (),
            Err(Refusal::Clash) => {
                let held = posting.held.and_then(origin);
                let both = held.zip(origin(posting.number));
                clashes.extend(both.map(|(held, refused)| Clash { held, refused }));
            }
            Err(refusal) => unread.extend(line(posting.number).map(|&number| WrongLine {
                number,
                mistake: Mistake::Refused(refusal),
            })),
        }
    }
    let mut origins = [const { None }; FIELDS.len()];
    for (slot, held) in origins.iter_mut().enumerate() {
        *held = posted.origin(slot).and_then(|(number, _)| origin(number));
    }
    Gathered {
        draft: posted.draft,
        origins,
        clashes,
        clashing: words::flaws(&posted, &lines),
        late: words::late(&posted, &lines),
        unread,
        bytes,
        lines,
    }
}

/// The message of a line, if it is not left out, at the start of a buffer.
fn message<'a>(
    line: &[u8],
    buffer: &'a mut [u8; MESSAGE_MAX],
) -> Result<Option<&'a [u8]>, Mistake> {
    let line = str::from_utf8(line).map_err(|_| Mistake::NotUtf8)?;
    if order::is_left_out(line) {
        return Ok(None);
    }
    let length = order::message(line, buffer)?;
    Ok(buffer.get(..length))
}

#[cfg(test)]
mod tests {
    use super::*;
    use cases::Random;
    use kieselbrot::DRAFT_SLOT_SIZE;

    /// What a slot comes from is what it holds, on orders of few revisions and texts; each
    /// posting that is refused is a clash.
    #[test]
    fn origins_are_what_the_draft_holds() {
        let mut random = Random::new(1);
        let mut reached = [0; 3];
        for _ in 0..2_000 {
            let mut order = String::new();
            for _ in 0..random.below(40) {
                order += random.pick(&["", "", "client ", "x "]);
                order += &format!("{} ", random.pick(&[14, 15, 101, 109]));
                order += &format!("{} ", 1 + random.below(3));
                order += random.pick(&["", "1", "2", "ТД"]);
                order += "\n";
            }
            let gathered = gather(&Input {
                name: String::new(),
                bytes: order.into_bytes(),
            });
            for (slot, origin) in gathered
                .draft
                .chunks_exact(DRAFT_SLOT_SIZE)
                .zip(&gathered.origins)
            {
                let Some(origin) = origin else {
                    assert_eq!(slot, [0; DRAFT_SLOT_SIZE]);
                    reached[0] += 1;
                    continue;
                };
                assert_eq!(slot[..4], origin.revision.to_be_bytes());
                assert_eq!(slot[4], origin.party.0);
                let text = &slot[6..][..usize::from(slot[5])];
                assert_eq!(windows1251::text(text), origin.text);
                reached[1] += 1;
            }
            for Clash { held, refused } in &gathered.clashes {
                let key = |origin: &Origin| (origin.field, origin.revision, origin.party);
                assert_eq!(key(held), key(refused));
                assert_ne!(held.text, refused.text);
                assert!(held.number < refused.number && held.line < refused.line);
                reached[2] += 1;
            }
        }
        assert!(reached.iter().all(|&times| times > 1_000), "{reached:?}");
    }
}

//! Messages end to end, cut and posted to a fresh draft as the program `budgetorder` does it.

use crate::{origins, read, slot_of, Draft, Message, Posted, Refusal, FIELDS};

/// A message of an input, and what posting it answered.
#[derive(Clone, Debug, PartialEq, Eq)]
#[non_exhaustive]
pub struct Posting<'a> {
    /// Its number, from 1.
    pub number: usize,
    /// Its bytes.
    pub bytes: &'a [u8],
    /// What posting it answered.
    pub answer: Result<Posted, Refusal>,
    /// The number of the message that its field's slot held when it came.
    pub held: Option<usize>,
}

/// What an input of messages comes to.
#[derive(Clone, Debug)]
#[non_exhaustive]
pub struct Gathered<'a> {
    /// The draft that they leave.
    pub draft: Draft,
    /// The messages that were read, or refused, in their order.
    pub postings: Vec<Posting<'a>>,
    /// For each slot the number of the message that it holds; 0 if none names its field.
    pub origins: [u64; FIELDS.len()],
    /// How many bytes behind the last message were left unread, after a wrong length.
    pub unread: usize,
}

impl<'a> Gathered<'a> {
    /// Posts an input of messages, end to end, to a fresh draft. Each has 2 + L bytes, or what
    /// is left if that is less; after one that is refused with [`Refusal::Length`] nothing is
    /// read.
    #[must_use]
    pub fn new(input: &'a [u8]) -> Self {
        let mut draft = Draft::new();
        let mut postings = Vec::new();
        let mut held = [None; FIELDS.len()];
        let mut rest = input;
        while !rest.is_empty() {
            let (bytes, behind) = rest.split_at(size(rest));
            rest = behind;
            let number = postings.len() + 1;
            let answer = draft.post(bytes);
            let slot = read(bytes).ok().and_then(|message| slot_of(message.field));
            let held = slot.and_then(|slot| held.get_mut(slot));
            postings.push(Posting {
                number,
                bytes,
                answer,
                held: held.as_ref().and_then(|held| **held),
            });
            match (answer, held) {
                (Err(Refusal::Length), _) => break,
                (Ok(Posted::Newer), Some(held)) => *held = Some(number),
                _ => (),
            }
        }
        Self {
            draft,
            postings,
            origins: origins(input),
            unread: rest.len(),
        }
    }

    /// The message with this number, if it reads.
    #[must_use]
    pub fn message(&self, number: usize) -> Option<Message<'a>> {
        let posting = self.postings.get(number.checked_sub(1)?)?;
        read(posting.bytes).ok()
    }

    /// The number of the message that a slot holds, and the message.
    #[must_use]
    pub fn origin(&self, slot: usize) -> Option<(usize, Message<'a>)> {
        let number = usize::try_from(*self.origins.get(slot)?).ok()?;
        Some((number, self.message(number)?))
    }
}

/// How many bytes the first message has: 2 and as many as these two say, or all that are
/// left.
fn size(messages: &[u8]) -> usize {
    match *messages {
        [high, low, ..] => {
            let length = usize::from(u16::from_be_bytes([high, low]));
            messages.len().min(2 + length)
        }
        _ => messages.len(),
    }
}

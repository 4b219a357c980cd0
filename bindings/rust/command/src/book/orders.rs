//! The orders of a part, each posted to a draft and completed.

use kieselbrot::{check, copy, pretest, Broken, Posted, Refusal, Sheet, Terms};
use kieselbrot::{DRAFT_SIZE, FIELDS, MESSAGE_MAX, SHEET_SIZE, SHEET_SLOT_SIZE};
use order::Mistake;

use super::lines::{name, At, Part, PartLine};
use super::times::Times;

/// What became of an order.
#[derive(Clone, Copy)]
pub struct Outcome {
    /// Where its first line begins.
    pub place: usize,
    /// How many messages it has that read.
    pub messages: u32,
    /// How many of its lines are wrong.
    pub wrong: u32,
    /// How many of its messages clash.
    pub clashes: u32,
    /// The count of fillings, of an order that is completed or has none that keeps the rules.
    pub count: u32,
    /// The proposed slots.
    pub filled: u16,
    /// 0, or the refusal's number.
    pub answer: u8,
    /// What the refusal comes from.
    pub cause: Cause,
}

/// What a refusal comes from.
#[derive(Clone, Copy)]
pub enum Cause {
    /// The number says it.
    Number,
    /// A broken rule.
    Rule(Broken),
    /// A rule that every filling breaks.
    EveryFilling(Broken),
    /// The rule that the first filling breaks; others break others.
    FirstFilling(Broken),
}

/// A wrong line, or a message that clashes.
#[derive(Clone, Copy)]
pub struct Flaw {
    /// Where the first line of its order begins.
    pub order: usize,
    /// Where the line begins.
    pub place: usize,
    /// Where the line begins that it clashes with; none if it is wrong.
    pub held: Option<usize>,
}

/// The texts of an order that is refused.
pub struct Given {
    /// Where the first line of the order begins.
    pub order: usize,
    /// The texts.
    pub sheet: Box<Sheet>,
}

/// What became of the orders of a part.
pub struct Done {
    pub outcomes: Vec<Outcome>,
    pub flaws: Vec<Flaw>,
    /// The texts of those that are refused, if they are kept.
    pub given: Vec<Given>,
}

/// How orders are completed.
#[derive(Clone, Copy)]
pub struct Asked {
    pub terms: Terms,
    /// Whether the texts of those that are refused are kept, to tell all causes.
    pub keeps_given: bool,
}

/// An order in a part: its name, and the first and last of its lines, which are chained.
struct Group<'a> {
    name: &'a [u8],
    hash: u32,
    first: u32,
    last: u32,
}

/// No next line.
const END: u32 = u32::MAX;

/// Completes the orders of a part.
pub fn complete(part: &Part, asked: Asked, times: &Times) -> Done {
    let groups = times.grouping(|| Groups::new(part));
    let (mut flaws, mut given) = (Vec::new(), Vec::new());
    let outcomes = groups.groups.iter().map(|group| {
        let gathered = times.posting(|| gather(group.name, groups.lines(group), &mut flaws));
        let outcome = times.completing(|| gathered.completed(asked.terms));
        if asked.keeps_given && outcome.answer != 0 {
            given.push(gathered.given());
        }
        outcome
    });
    Done {
        outcomes: outcomes.collect(),
        flaws,
        given,
    }
}

/// The lines of a part, grouped by order.
struct Groups<'a> {
    part: &'a Part<'a>,
    groups: Vec<Group<'a>>,
    /// For each line where it stands, and the number of the next of its order.
    lines: Vec<(At, u32)>,
}

impl<'a> Groups<'a> {
    fn new(part: &'a Part<'a>) -> Self {
        let mut groups: Vec<Group> = Vec::new();
        let mut lines = Vec::new();
        let mut table = Table::new();
        // A part has fewer lines than END: each has taken 13 bytes at least.
        for ((at, line), number) in part.lines().zip(0..END) {
            lines.push((at, END));
            match table.find(&mut groups, line.hash, |group| is_of(line.line, group.name)) {
                Ok(group) => {
                    lines[group.last as usize].1 = number;
                    group.last = number;
                }
                Err(free) => {
                    table.slots[free] = groups.len() as u32 + 1;
                    groups.push(Group {
                        name: name(line.line),
                        hash: line.hash,
                        first: number,
                        last: number,
                    });
                    table.grow(&mut groups);
                }
            }
        }
        Self {
            part,
            groups,
            lines,
        }
    }

    /// The lines of an order, in the order of arrival.
    fn lines(&self, group: &Group) -> impl Iterator<Item = PartLine<'a>> + '_ {
        let mut number = group.first;
        std::iter::from_fn(move || {
            let (at, next) = *self.lines.get(number as usize)?;
            number = next;
            self.part.line(at)
        })
    }
}

/// Whether a line is of the order with this name.
fn is_of(line: &[u8], name: &[u8]) -> bool {
    line.starts_with(name) && matches!(line[name.len()..], [] | [b' ', ..])
}

/// A hash table of orders: a slot has an order's number from 1, or 0.
struct Table {
    slots: Vec<u32>,
}

impl Table {
    fn new() -> Self {
        Self {
            slots: vec![0; 1024],
        }
    }

    /// The order of this hash that is meant, or the free slot for it.
    #[inline]
    fn find<'a, 'g>(
        &self,
        groups: &'a mut [Group<'g>],
        hash: u32,
        is_meant: impl Fn(&Group) -> bool,
    ) -> Result<&'a mut Group<'g>, usize> {
        let mask = self.slots.len() - 1;
        let mut slot = hash as usize & mask;
        loop {
            // There is always a free slot.
            let Some(number) = (self.slots[slot] as usize).checked_sub(1) else {
                return Err(slot);
            };
            if groups[number].hash == hash && is_meant(&groups[number]) {
                return Ok(&mut groups[number]);
            }
            slot = (slot + 1) & mask;
        }
    }

    /// Doubles the slots when half of them are taken.
    fn grow(&mut self, groups: &mut [Group]) {
        if groups.len() * 2 <= self.slots.len() {
            return;
        }
        self.slots = vec![0; self.slots.len() * 2];
        for number in 0..groups.len() {
            let hash = groups[number].hash;
            if let Err(free) = self.find(groups, hash, |_| false) {
                self.slots[free] = number as u32 + 1;
            }
        }
    }
}

/// An order's messages, posted.
struct Gathered {
    draft: [u8; DRAFT_SIZE],
    place: usize,
    messages: u32,
    wrong: u32,
    clashes: u32,
}

/// Posts the lines of an order.
fn gather<'a>(
    name: &[u8],
    lines: impl Iterator<Item = PartLine<'a>>,
    flaws: &mut Vec<Flaw>,
) -> Gathered {
    let is_utf8 = str::from_utf8(name).is_ok();
    let mut lines = lines.peekable();
    let order = lines.peek().map_or(0, |line| line.place);
    let mut gathered = Gathered {
        draft: [0; DRAFT_SIZE],
        place: order,
        messages: 0,
        wrong: 0,
        clashes: 0,
    };
    // The places of the lines that the slots come from.
    let mut origins = [None; FIELDS.len()];
    let mut buffer = [0; MESSAGE_MAX];
    for PartLine { place, line, .. } in lines {
        let rest = line.get(name.len() + 1..).unwrap_or_default();
        let posted = match message_of(rest, &mut buffer) {
            Ok(message) if is_utf8 => {
                let posted = kieselbrot::post(&mut gathered.draft, message);
                posted.map(|posted| (posted, message))
            }
            _ => Err(Refusal::Length),
        };
        let flaw = |held| Flaw { order, place, held };
        match posted {
            Ok((posted, message)) => {
                gathered.messages += 1;
                if posted == Posted::Newer {
                    origins[slot(message)] = Some(place);
                }
            }
            Err(Refusal::Clash) => {
                gathered.messages += 1;
                gathered.clashes += 1;
                flaws.push(flaw(origins[slot(&buffer)]));
            }
            Err(_) => {
                gathered.wrong += 1;
                flaws.push(flaw(None));
            }
        }
    }
    gathered
}

/// The message of a line of a book, at the start of a buffer.
pub fn message<'a>(line: &[u8], buffer: &'a mut [u8; MESSAGE_MAX]) -> Result<&'a [u8], Mistake> {
    let name = name(line);
    if str::from_utf8(name).is_err() {
        return Err(Mistake::NotUtf8);
    }
    message_of(line.get(name.len() + 1..).unwrap_or_default(), buffer)
}

/// The message of what stands behind an order's name, at the start of a buffer.
#[inline]
fn message_of<'a>(rest: &[u8], buffer: &'a mut [u8; MESSAGE_MAX]) -> Result<&'a [u8], Mistake> {
    let rest = str::from_utf8(rest).map_err(|_| Mistake::NotUtf8)?;
    let length = order::message(rest, buffer)?;
    Ok(&buffer[..length.min(MESSAGE_MAX)])
}

/// The slot of a message that reads; its field stands behind the version, in version 2 behind
/// the party.
fn slot(message: &[u8]) -> usize {
    let field = match *message {
        [_, _, 1, field, ..] | [_, _, _, _, field, ..] => field,
        _ => 0,
    };
    SLOTS[usize::from(field)]
}

/// The slot of each field.
const SLOTS: [usize; 256] = {
    let mut slots = [0; 256];
    let mut slot = 0;
    while slot < FIELDS.len() {
        slots[FIELDS[slot] as usize] = slot;
        slot += 1;
    }
    slots
};

impl Gathered {
    /// Its texts.
    fn given(&self) -> Given {
        let mut sheet = Box::new(Sheet::new());
        // A draft that was gathered is well-formed.
        let _ = copy(&self.draft, &mut sheet);
        Given {
            order: self.place,
            sheet,
        }
    }

    fn completed(&self, terms: Terms) -> Outcome {
        let mut sheet = [0; SHEET_SIZE];
        let answer = kieselbrot::complete(&self.draft, &mut sheet, terms);
        let (count, filled) = match answer {
            Ok(completed) => (completed.count, completed.set),
            Err(Refusal::NoFilling { count }) => (count, 0),
            Err(_) => (0, 0),
        };
        Outcome {
            place: self.place,
            messages: self.messages,
            wrong: self.wrong,
            clashes: self.clashes,
            count: u32::try_from(count).unwrap_or(u32::MAX),
            filled,
            answer: answer.err().map_or(0, |refusal| refusal.number()),
            cause: answer
                .err()
                .map_or(Cause::Number, |refusal| self.cause(refusal, terms)),
        }
    }

    /// What a refusal comes from.
    fn cause(&self, refusal: Refusal, terms: Terms) -> Cause {
        match refusal {
            Refusal::Broken { field, rule } => Cause::Rule(Broken { field, rule }),
            Refusal::NoFilling { .. } => match pretest(&self.draft) {
                Ok(Some(broken)) => Cause::EveryFilling(broken),
                _ => match check(&self.first_filling(), terms) {
                    Err(Refusal::Broken { field, rule }) => {
                        Cause::FirstFilling(Broken { field, rule })
                    }
                    _ => Cause::Number,
                },
            },
            _ => Cause::Number,
        }
    }

    /// The first filling: of each list the first entry. That of 101 is 01 at every date.
    fn first_filling(&self) -> Sheet {
        let mut sheet = *self.given().sheet;
        for (slot, field) in sheet.chunks_exact_mut(SHEET_SLOT_SIZE).zip(FIELDS) {
            let entry: &[u8] = match field {
                101 => b"01",
                22 | 60 | 102 | 104..=109 => b"0",
                _ => continue,
            };
            if let [length @ 0, text @ ..] = slot {
                *length = entry.len() as u8;
                text[..entry.len()].copy_from_slice(entry);
            }
        }
        sheet
    }
}

const _: () = assert!(size_of::<Outcome>() <= 40);

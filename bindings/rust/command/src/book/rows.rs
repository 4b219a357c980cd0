//! What is told of a book: a row for each order, and a summary.

use std::collections::BTreeMap;
use std::fmt::Write as _;
use std::io::{self, Write};
use std::num::NonZero;

use kieselbrot::causes::{self, Causes};
use kieselbrot::{read, words, Broken, Refusal, Terms, FIELDS, MESSAGE_MAX};
use order::windows1251;

use super::lines::name;
use super::orders::{message, Cause, Flaw, Outcome};
use super::{in_parallel, Book, Progress};
use crate::causes::members;
use crate::complete::{clash, clashing, fields_of, rules, wanted};
use crate::gather::{Clash, Origin};
use crate::json::{self, Object};
use crate::shown;

/// The rows of a book.
pub struct Rows<'a> {
    book: &'a Book<'a>,
    file: &'a str,
    terms: Terms,
    /// What each rule wants, rule 1 first.
    rules: Vec<String>,
}

/// How many there are.
#[derive(Default)]
pub struct Counts {
    pub orders: usize,
    pub messages: usize,
    pub completed: usize,
    pub refused: usize,
    pub unread: usize,
    pub clashes: usize,
    pub wrong: usize,
}

/// When so many bytes are ready they are written.
const BLOCK: usize = 1 << 16;

/// As many orders are made into JSON at a time.
const AT_A_TIME: usize = 4096;

/// What an order's answer is called.
enum Answer {
    Completed,
    Refused,
    Unread,
}

impl Outcome {
    fn called(&self) -> Answer {
        match self {
            Self { wrong: 1.., .. } => Answer::Unread,
            Self { answer: 0, .. } => Answer::Completed,
            _ => Answer::Refused,
        }
    }
}

impl<'a> Rows<'a> {
    pub fn new(book: &'a Book<'a>, file: &'a str, terms: Terms) -> Self {
        Self {
            book,
            file,
            rules: rules(terms).collect(),
            terms,
        }
    }

    pub fn counts(&self) -> Counts {
        let mut counts = Counts {
            orders: self.book.outcomes.len(),
            wrong: self.book.lines.nameless().count(),
            ..Counts::default()
        };
        for outcome in &self.book.outcomes {
            counts.messages += outcome.messages as usize;
            counts.clashes += outcome.clashes as usize;
            counts.wrong += outcome.wrong as usize;
            *match outcome.called() {
                Answer::Completed => &mut counts.completed,
                Answer::Refused => &mut counts.refused,
                Answer::Unread => &mut counts.unread,
            } += 1;
        }
        counts
    }

    /// The orders, each with its flaws.
    fn orders(&self) -> impl Iterator<Item = (&'a Outcome, &'a [Flaw])> {
        let mut flaws = &self.book.flaws[..];
        self.book.outcomes.iter().map(move |outcome| {
            // Flaws are sorted as orders are.
            let count = flaws
                .iter()
                .take_while(|flaw| flaw.order == outcome.place)
                .count();
            let (its, rest) = flaws.split_at(count);
            flaws = rest;
            (outcome, its)
        })
    }

    /// Lines FILE:NUMBER: MISTAKE, by number.
    pub fn wrong_lines(&self) -> impl Iterator<Item = String> + '_ {
        let wrong = self.book.flaws.iter().filter(|flaw| flaw.held.is_none());
        let mut places: Vec<usize> = wrong.map(|flaw| flaw.place).collect();
        places.extend(self.book.lines.nameless());
        places.sort_unstable();
        places.into_iter().map(|place| {
            let (number, mistake) = self.wrong_line(place);
            format!("{}:{number}: {mistake}", self.file)
        })
    }

    /// The number of a wrong line, and what is wrong with it.
    fn wrong_line(&self, place: usize) -> (usize, String) {
        let line = self.book.lines.line(place);
        let mistake = match name(line) {
            [] => "the order's name is missing; a line is ORDER FIELD REVISION TEXT".to_owned(),
            _ => match message(line, &mut [0; MESSAGE_MAX]) {
                Err(mistake) => shown::mistake(&mistake),
                Ok(_) => "the library refuses the line".to_owned(),
            },
        };
        (self.book.lines.number(place), mistake)
    }

    /// The message of the line at a place.
    fn origin(&self, place: usize) -> Option<Origin> {
        let mut buffer = [0; MESSAGE_MAX];
        let message = message(self.book.lines.line(place), &mut buffer).ok()?;
        let message = read(message).ok()?;
        Some(Origin {
            line: self.book.lines.number(place),
            number: 0,
            field: message.field,
            revision: message.revision,
            party: message.party,
            text: windows1251::text(message.text),
        })
    }

    fn clash(&self, flaw: &Flaw) -> Option<Clash> {
        Some(Clash {
            held: self.origin(flaw.held?)?,
            refused: self.origin(flaw.place)?,
        })
    }

    fn rule(&self, Broken { field, rule }: Broken, out: &mut String) {
        let wants = wanted(&self.rules, rule);
        let name = words::field(field).unwrap_or_default();
        let _ = write!(out, "rule {rule} in field {field} ({name}): {wants}");
    }

    /// The first cause: of an order that does not read the first wrong line, of a refusal what
    /// it comes from, of one that is completed the first clash.
    fn cause(&self, outcome: &Outcome, flaws: &[Flaw], out: &mut String) -> Option<()> {
        match (outcome.called(), outcome.cause) {
            (Answer::Unread, _) => {
                let wrong = flaws.iter().find(|flaw| flaw.held.is_none())?;
                let (number, mistake) = self.wrong_line(wrong.place);
                let _ = write!(out, "line {number} does not read: {mistake}");
            }
            (Answer::Completed, _) => {
                let clashing = flaws.iter().find_map(|flaw| self.clash(flaw))?;
                out.push_str(clash(&clashing).trim_end_matches('.'));
            }
            (Answer::Refused, Cause::Rule(broken)) => self.rule(broken, out),
            (Answer::Refused, Cause::EveryFilling(broken)) => {
                out.push_str("every filling breaks ");
                self.rule(broken, out);
            }
            (Answer::Refused, Cause::FirstFilling(broken)) => {
                out.push_str("not one rule for all; the first filling breaks ");
                self.rule(broken, out);
            }
            (Answer::Refused, Cause::Number) => out.push_str(match outcome.answer {
                9 => "an ordinary order, not a budget payment",
                12 => "the dates are refused",
                _ => return None,
            }),
        }
        Some(())
    }

    /// A line for each order, an empty one and the summary.
    pub fn write_words(&self, out: &mut impl Write) -> io::Result<()> {
        let mut filled = Filled::default();
        let mut rows = String::with_capacity(2 * BLOCK);
        for (outcome, flaws) in self.orders() {
            let name = name(self.book.lines.line(outcome.place));
            push_name(&mut rows, name);
            match outcome.called() {
                Answer::Completed => rows.push_str(" ok "),
                Answer::Unread => rows.push_str(" unread - - "),
                Answer::Refused => {
                    let _ = write!(rows, " {} ", outcome.answer);
                }
            }
            if !matches!(outcome.called(), Answer::Unread) {
                match outcome.count {
                    0 => rows.push('-'),
                    1 => rows.push('1'),
                    count => {
                        let _ = write!(rows, "{count}");
                    }
                }
                rows.push(' ');
                rows.push_str(filled.of(outcome.filled));
                rows.push(' ');
            }
            match outcome.clashes {
                0 => rows.push('0'),
                clashes => {
                    let _ = write!(rows, "{clashes}");
                }
            }
            rows.push(' ');
            if self.cause(outcome, flaws, &mut rows).is_none() {
                rows.push('-');
            }
            rows.push('\n');
            if rows.len() > BLOCK {
                out.write_all(rows.as_bytes())?;
                rows.clear();
            }
        }
        let counts = self.counts();
        let _ = writeln!(
            rows,
            "\n{} of {}: {} completed, {} refused, {} not read; {}, {}",
            shown::counted(counts.orders, "order"),
            shown::counted(counts.messages, "message"),
            counts.completed,
            counts.refused,
            counts.unread,
            match counts.clashes {
                1 => "1 clash".to_owned(),
                clashes => format!("{clashes} clashes"),
            },
            shown::counted(counts.wrong, "wrong line")
        );
        out.write_all(rows.as_bytes())
    }

    /// An object for each order, one for each line without an order's name, and the summary.
    pub fn write_json(&self, out: &mut impl Write, threads: NonZero<usize>) -> io::Result<()> {
        let mut orders = self.orders();
        loop {
            // So many at a time are made on all cores, and written in their order.
            let some: Vec<(&Outcome, &[Flaw])> = orders.by_ref().take(AT_A_TIME).collect();
            if some.is_empty() {
                break;
            }
            let pieces: Vec<_> = some.chunks(AT_A_TIME / 64).collect();
            let made = in_parallel(pieces.len(), threads, &Progress::new(), |number| {
                self.objects(pieces[number])
            });
            for objects in made {
                out.write_all(objects.as_bytes())?;
            }
        }
        let mut rows = String::new();
        for place in self.book.lines.nameless() {
            rows += &json::line(|object| {
                object.value("order", "null");
                object.array("unread", [place], |out, place| self.unread(out, place));
            });
        }
        let counts = self.counts();
        rows += &json::line(|object| {
            object.object("summary", |object| {
                for (name, count) in [
                    ("orders", counts.orders),
                    ("messages", counts.messages),
                    ("completed", counts.completed),
                    ("refused", counts.refused),
                    ("unread", counts.unread),
                    ("clashes", counts.clashes),
                    ("wrong", counts.wrong),
                ] {
                    object.value(name, count);
                }
            });
        });
        out.write_all(rows.as_bytes())
    }

    /// An object for each of some orders.
    fn objects(&self, orders: &[(&Outcome, &[Flaw])]) -> String {
        let mut rows = String::new();
        let mut cause = String::new();
        for (outcome, flaws) in orders {
            cause.clear();
            let cause = self.cause(outcome, flaws, &mut cause).map(|()| &*cause);
            json::object(&mut rows, |object| {
                self.order(object, outcome, flaws, cause);
            });
            rows.push('\n');
        }
        rows
    }

    /// All causes of a refusal.
    fn causes(&self, outcome: &Outcome) -> Option<Causes> {
        let given = &self.book.given;
        let place = given.binary_search_by_key(&outcome.place, |given| given.order);
        let sheet = &given.get(place.ok()?)?.sheet;
        let refusal = match (outcome.answer, outcome.cause) {
            (10, _) => Refusal::NoFilling {
                count: outcome.count as usize,
            },
            (8, Cause::Rule(Broken { field, rule })) => Refusal::Broken { field, rule },
            _ => return None,
        };
        Some(causes::of(sheet, refusal, self.terms))
    }

    fn order(&self, object: &mut Object, outcome: &Outcome, flaws: &[Flaw], cause: Option<&str>) {
        let name = name(self.book.lines.line(outcome.place));
        object.text("order", &String::from_utf8_lossy(name));
        match outcome.called() {
            Answer::Unread => object.value("answer", "null"),
            _ => {
                object.value("answer", outcome.answer);
                if outcome.count > 0 {
                    object.value("count", outcome.count);
                }
                if let Answer::Completed = outcome.called() {
                    object.numbers("filled", fields_of(outcome.filled));
                }
            }
        }
        if let (Answer::Refused, Cause::Rule(broken) | Cause::EveryFilling(broken)) =
            (outcome.called(), outcome.cause)
        {
            object.value("field", broken.field);
            object.value("rule", broken.rule);
        }
        object.value("messages", outcome.messages);
        let clashes = flaws.iter().filter_map(|flaw| self.clash(flaw));
        object.array("clashes", clashes, |out, clash| {
            json::object(out, |object| clashing(object, &clash));
        });
        let wrong = flaws.iter().filter(|flaw| flaw.held.is_none());
        object.array("unread", wrong, |out, flaw| self.unread(out, flaw.place));
        match cause {
            Some(cause) => object.text("cause", cause),
            None => object.value("cause", "null"),
        }
        if let Answer::Refused = outcome.called() {
            let causes = self.causes(outcome).unwrap_or_default();
            members(object, &causes, |rule| wanted(&self.rules, rule));
        }
    }

    fn unread(&self, out: &mut String, place: usize) {
        let (number, mistake) = self.wrong_line(place);
        json::object(out, |object| {
            object.value("line", number);
            object.text("mistake", &mistake);
        });
    }
}

/// Adds a name, on one line.
fn push_name(rows: &mut String, name: &[u8]) {
    match str::from_utf8(name) {
        Ok(plain) if name.iter().all(u8::is_ascii_graphic) => rows.push_str(plain),
        _ => rows.push_str(&shown::visible(&String::from_utf8_lossy(name))),
    }
}

/// Sets of slots as their fields, parted by commas; most orders have one of a few.
#[derive(Default)]
struct Filled {
    known: BTreeMap<u16, String>,
}

impl Filled {
    fn of(&mut self, set: u16) -> &str {
        self.known.entry(set).or_insert_with(|| {
            let fields: Vec<String> = fields_of(set).map(|field| field.to_string()).collect();
            match fields.is_empty() {
                true => "-".to_owned(),
                false => fields.join(","),
            }
        })
    }
}

const _: () = assert!(FIELDS.len() <= 16);

//! `complete`: one order.

use std::ffi::OsString;

use kieselbrot::{quick, words, Quickened, Refusal, Sheet, Terms};
use kieselbrot::{FIELDS, SHEET_SIZE, SHEET_SLOT_SIZE, TEXT_MAX};
use order::windows1251;

use crate::arguments::parse;
use crate::dates::{self, dates};
use crate::gather::{gather, Clash, Gathered, Origin};
use crate::input::Input;
use crate::json::{self, Object};
use crate::{causes, page, shown, write_all, Answer, Failure, Status};

/// All that is told of an order.
pub struct Report {
    /// The file's name.
    pub name: String,
    /// The order's date, and the record.
    pub terms: Terms,
    /// The texts that are given.
    given: Sheet,
    /// What its lines come to.
    pub gathered: Gathered,
    /// What completing it answers.
    pub answer: Quickened,
    /// The fields, with what is proposed.
    pub rows: [Row; FIELDS.len()],
    /// The answer in words.
    pub words: String,
    /// The fields, each with its text and where that comes from, in words.
    pub table: Vec<String>,
}

/// A field of the order.
#[derive(Default)]
pub struct Row {
    /// Its number.
    pub field: u8,
    /// Its text; empty if it is blank.
    pub text: String,
    /// Whether the text is proposed.
    pub is_proposed: bool,
}

/// `complete ORDER`.
pub fn run(given: &[OsString]) -> Answer {
    let arguments = parse(given, &["--json", "--html"], &dates::OPTIONS)?;
    if arguments.has("--html") && arguments.has("--json") {
        let both = "--html and --json exclude each other";
        return Err(Failure::Usage(both.to_owned()));
    }
    let input = Input::read(arguments.one("ORDER")?)?;
    let terms = dates(&arguments)?;
    let report = Report::new(&input, terms);
    let text = if arguments.has("--html") {
        page::page(&report)
    } else if arguments.has("--json") {
        report.json()
    } else {
        report.words()
    };
    write_all(text.as_bytes())?;
    Ok(report.status())
}

impl Report {
    /// Gathers an order's lines and completes them.
    pub fn new(input: &Input, terms: Terms) -> Self {
        let gathered = gather(input);
        let mut sheet = [0; SHEET_SIZE];
        let answer = quick(&gathered.draft, &mut sheet, terms);
        let mut given = Sheet::new();
        // A draft that was gathered is well-formed.
        let _ = kieselbrot::copy(&gathered.draft, &mut given);
        let set = match answer.completed {
            Ok(completed) => completed.set,
            Err(_) => {
                sheet = given.into();
                0
            }
        };
        let mut rows: [Row; FIELDS.len()] = Default::default();
        let slots = sheet.chunks_exact(SHEET_SLOT_SIZE).enumerate();
        for (row, (slot, held)) in rows.iter_mut().zip(slots) {
            let [length, text @ ..] = held else { continue };
            *row = Row {
                field: FIELDS[slot],
                text: windows1251::text(text.get(..usize::from(*length)).unwrap_or(text)),
                is_proposed: set >> slot & 1 == 1,
            };
        }
        Self {
            name: input.name.clone(),
            terms,
            words: words::explanation(&gathered.draft, terms),
            given,
            table: words::table(
                &kieselbrot::Gathered::new(&gathered.bytes),
                &gathered.lines,
                terms,
            ),
            gathered,
            answer,
            rows,
        }
    }

    pub fn status(&self) -> Status {
        let gathered = &self.gathered;
        match self.answer.completed {
            Err(_) => Status::Refused,
            Ok(_) if gathered.clashes.is_empty() && gathered.unread.is_empty() => Status::Done,
            Ok(_) => Status::Flawed,
        }
    }

    /// The lines that don't read, a sentence for each.
    pub fn unread(&self) -> impl Iterator<Item = String> + '_ {
        self.gathered.unread.iter().map(|wrong| {
            let mistake = shown::mistake(&wrong.mistake);
            format!("Line {} does not read: {mistake}.", wrong.number)
        })
    }

    /// What is wrong with lines, what changes nothing, the answer, the table.
    fn words(&self) -> String {
        let clashing = self.gathered.clashing.iter().cloned();
        let flaws: Vec<String> = self.unread().chain(clashing).collect();
        let parts = [
            flaws.join("\n"),
            self.gathered.late.join("\n"),
            self.words.clone(),
            self.table.join("\n"),
        ];
        let told: Vec<String> = parts.into_iter().filter(|part| !part.is_empty()).collect();
        told.join("\n\n") + "\n"
    }

    fn json(&self) -> String {
        json::line(|object| {
            object.text("file", &self.name);
            object.value("date", self.terms.date.0);
            completed(object, &self.answer);
            if let Err(refusal) = self.answer.completed {
                self.causes(object, refusal);
            }
            object.array(
                "fields",
                self.rows.iter().zip(&self.gathered.origins),
                |out, (row, origin)| {
                    json::object(out, |object| field(object, row, origin.as_ref()));
                },
            );
            object.value("messages", self.gathered.lines.len());
            object.array("clashes", &self.gathered.clashes, |out, clash| {
                json::object(out, |object| clashing(object, clash));
            });
            object.array("unread", &self.gathered.unread, |out, wrong| {
                json::object(out, |object| {
                    object.value("line", wrong.number);
                    object.text("mistake", &shown::mistake(&wrong.mistake));
                });
            });
            object.text("words", &self.words);
        })
    }
}

impl Report {
    /// The members that say why the order is refused; of an ordinary one, the rules that it
    /// breaks as such.
    fn causes(&self, object: &mut Object, refusal: Refusal) {
        if refusal == Refusal::Ordinary {
            broken(object, &self.given, self.terms);
        }
        let causes = kieselbrot::causes::of(&self.given, refusal, self.terms);
        let wants: Vec<String> = rules(self.terms).collect();
        causes::members(object, &causes, |rule| wanted(&wants, rule));
    }
}

/// What each rule wants of an order with this date, rule 1 first.
pub fn rules(terms: Terms) -> impl Iterator<Item = String> {
    (1..).map_while(move |rule| words::rule(rule, terms))
}

/// What a rule wants, of what each does.
pub fn wanted(rules: &[String], rule: u8) -> &str {
    let place = usize::from(rule).checked_sub(1);
    place
        .and_then(|place| rules.get(place))
        .map_or("", String::as_str)
}

/// The member with all rules that a sheet breaks.
pub fn broken(object: &mut Object, sheet: &[u8], terms: Terms) {
    let broken = words::broken(sheet, terms);
    object.array("broken", broken, |out, (broken, _)| {
        json::object(out, |object| {
            object.value("field", broken.field);
            object.value("rule", broken.rule);
            let wants = words::rule(broken.rule, terms);
            object.text("wants", &wants.unwrap_or_default());
        });
    });
}

/// A clash of lines in words.
pub fn clash(Clash { held, refused }: &Clash) -> String {
    let who = format!("Lines {} and {}", held.line, refused.line);
    let bytes = |text: &str| {
        let mut bytes = [0; TEXT_MAX];
        let length = windows1251::encode(text, &mut bytes).unwrap_or_default();
        bytes.into_iter().take(length).collect::<Vec<u8>>()
    };
    words::clash(
        &who,
        refused.field,
        refused.revision,
        refused.party,
        [&bytes(&held.text), &bytes(&refused.text)],
    )
}

/// The members of a clash.
pub fn clashing(object: &mut Object, Clash { held, refused }: &Clash) {
    object.value("field", refused.field);
    object.value("revision", refused.revision);
    object.text("party", words::party(refused.party).unwrap_or_default());
    for (name, message) in [("stands", held), ("refused", refused)] {
        object.object(name, |object| {
            object.value("line", message.line);
            object.text("text", &message.text);
        });
    }
}

/// The members of the answer of a completion.
fn completed(object: &mut Object, answer: &Quickened) {
    match answer.completed {
        Ok(completed) => {
            object.value("answer", 0);
            object.value("count", completed.count);
            object.numbers("filled", fields_of(completed.set));
        }
        Err(refusal) => refused(object, refusal),
    }
    if matches!(answer.completed, Ok(_) | Err(Refusal::NoFilling { .. })) {
        object.value("skipped", answer.skipped);
    }
}

/// The members of a refusal: its number and what it returns.
pub fn refused(object: &mut Object, refusal: Refusal) {
    object.value("answer", refusal.number());
    match refusal {
        Refusal::Broken { field, rule } => {
            object.value("field", field);
            object.value("rule", rule);
        }
        Refusal::NoFilling { count } => object.value("count", count),
        Refusal::Discrepancy { difference } => object.value("difference", difference),
        _ => (),
    }
}

/// The fields of a set of slots.
pub fn fields_of(set: u16) -> impl Iterator<Item = u8> {
    let fields = FIELDS.into_iter().enumerate();
    fields
        .filter(move |(slot, _)| set >> slot & 1 == 1)
        .map(|(_, field)| field)
}

/// The members of a field.
fn field(object: &mut Object, row: &Row, origin: Option<&Origin>) {
    object.value("field", row.field);
    object.text("name", words::field(row.field).unwrap_or_default());
    object.text("text", &row.text);
    object.text(
        "from",
        match (row.is_proposed, row.text.is_empty()) {
            (true, _) => "proposed",
            (false, true) => "blank",
            (false, false) => "message",
        },
    );
    if let Some(origin) = origin {
        object.value("line", origin.line);
        object.value("message", origin.number);
        object.value("revision", origin.revision);
        object.text("party", words::party(origin.party).unwrap_or_default());
    }
}

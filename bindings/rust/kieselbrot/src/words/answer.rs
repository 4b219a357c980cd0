//! The answer of a completion: what is proposed, or all that is in the way.

use super::shown::{and, or, quoted};
use super::{shown_entry, thousands, undated, with_name, Wording};
use crate::causes::{causes, named, place, Cause, Choice, Kind};
use crate::slots::list;
use crate::{broken_rules, complete, copy};
use crate::{Broken, BrokenRules, Completed, Entry, Refusal, Sheet, Terms, FIELDS};

/// What completing the draft of an order with this date answers, and why: lines parted by
/// `\n`, none at the end.
///
/// Of an order that is completed it tells each proposed value, and which other entries of the
/// field's list would do with all else as it is. If no filling keeps the rules, it names all
/// causes: for each status (or for the given one) the rules that all its fillings break, and,
/// if each of these breaks another one besides, so many of those that each filling has one.
#[must_use]
pub fn explanation(draft: &[u8], terms: Terms) -> String {
    let wording = Wording::new(terms);
    let mut given = Sheet::new();
    let mut sheet = Sheet::new();
    let answer = copy(draft, &mut given);
    match answer.and_then(|()| complete(draft, &mut sheet, terms)) {
        Ok(completed) => wording.found(&given, &sheet, completed),
        Err(Refusal::NoFilling { count }) => wording.none_found(&given, count),
        Err(Refusal::Broken { .. }) => wording.not_yet(&given),
        Err(Refusal::Ordinary) => wording.ordinary(&given),
        Err(refusal) => refused(refusal),
    }
}

/// All rules that a sheet of an order with this date breaks, in the order of testing, each with
/// its field and a line of words: what it wants and what is given. None if it breaks none, or
/// can't be checked.
#[must_use]
pub fn broken(sheet: &[u8], terms: Terms) -> Vec<(Broken, String)> {
    let wording = Wording::new(terms);
    let rules = broken_rules(sheet, terms).unwrap_or_default();
    let Ok(sheet) = Sheet::try_from(sheet) else {
        return Vec::new();
    };
    let mut rules: Vec<u8> = rules.iter().collect();
    rules.sort_by_key(|&rule| place(rule));
    let broken = |rule| {
        let field = named(&sheet, rule);
        (Broken { field, rule }, wording.broken(&sheet, rule))
    };
    rules.into_iter().map(broken).collect()
}

/// The other refusals of a completion.
fn refused(refusal: Refusal) -> String {
    match refusal {
        Refusal::Malformed => "This draft is malformed: it can't be read as an order.".to_owned(),
        Refusal::Undated => undated(),
        _ => format!(
            "The linked library is another one: completion never answers {}.",
            refusal.numbers()
        ),
    }
}

/// What stands in a field: its text in quotes, or that it is blank.
fn stands(sheet: &Sheet, field: u8) -> String {
    match sheet.text(field) {
        [] => "It is blank.".to_owned(),
        text => format!("Given: {}.", quoted(field, text)),
    }
}

/// A field with its name and its text in quotes.
fn with_text(sheet: &Sheet, field: u8) -> String {
    match sheet.text(field) {
        [] => format!("{} blank", with_name(field)),
        text => format!("{} {}", with_name(field), quoted(field, text)),
    }
}

/// A number up to twelve in letters.
fn in_letters(number: usize) -> String {
    const LETTERS: [&str; 13] = [
        "none", "one", "two", "three", "four", "five", "six", "seven", "eight", "nine", "ten",
        "eleven", "twelve",
    ];
    let letters = LETTERS.get(number).map(|&letters| letters.to_owned());
    letters.unwrap_or_else(|| thousands(number))
}

/// What a budget payment has.
const CLASSES: &str = "A budget payment has a bank account (15) that begins 40102 and a recipient \
                       account (17) that begins 03100, 03212, 03222, 03232, 03242, 03252, 03262, \
                       03272, 03214, 03224, 03234 or 03244; or a BIK (14) with 000 to 005 as \
                       digits 7 to 9 and a recipient account that begins 40204, or begins 40503, \
                       40603 or 40703 and has 4 as its 14th digit.";

impl Wording {
    /// A filling keeps the rules.
    fn found(&self, given: &Sheet, sheet: &Sheet, completed: Completed) -> String {
        let filled = || completed.filled();
        let lists = filled().map(|field| list(field, self.terms).len());
        let filling = match lists.product() {
            1 => "its only filling keeps the rules".to_owned(),
            all => format!(
                "filling {} of its {} is the first that keeps the rules",
                thousands(completed.count),
                thousands(all)
            ),
        };
        debug_assert!(filled().all(|field| given.text(field).is_empty()));
        let head = match completed.ones {
            0 => "Nothing is proposed: it is complete as it is given.".to_owned(),
            1 => "It fills 1 field. This is proposed, not given:".to_owned(),
            ones => format!("It fills {ones} fields. These are proposed, not given:"),
        };
        let lines: String = filled()
            .map(|field| format!("\n- {}", self.proposed(sheet, field)))
            .collect();
        format!("This order can be completed: {filling}.\n{head}{lines}")
    }

    /// A proposed value, and what would do in its place.
    fn proposed(&self, sheet: &Sheet, field: u8) -> String {
        let tried = list(field, self.terms);
        let value = sheet.text(field);
        let would_do = |entry: &&Entry| {
            ***entry != *value && sheet.with(field, entry).check(self.terms).is_ok()
        };
        let others: Vec<String> = tried.iter().filter(would_do).map(shown_entry).collect();
        let value = format!("{}: {}", with_name(field), quoted(field, value));
        match (tried.len(), &others[..]) {
            (1, _) => format!("{value}; nothing else is tried."),
            (all, []) => format!(
                "{value}, the only one of the {} tried that would do.",
                in_letters(all)
            ),
            (_, [other]) => {
                format!("{value} is the first of two that would do; the other: {other}.")
            }
            (_, others) => format!(
                "{value} is the first of {} that would do; the others: {}.",
                in_letters(others.len() + 1),
                others.join(" ")
            ),
        }
    }

    /// No filling keeps the rules.
    fn none_found(&self, given: &Sheet, count: usize) -> String {
        let fillings = match count {
            1 => "its only filling breaks the rules".to_owned(),
            _ => format!("none of its {} fillings keeps the rules", thousands(count)),
        };
        let mut words = format!("This order can't be completed: {fillings}.");
        let causes = causes(given, self.terms);
        let is_open = given.text(101).is_empty();
        let heads = match is_open {
            true => [
                "In the way of every status:",
                "In the way of some statuses:",
            ],
            false => ["In the way:", ""],
        };
        let (every, some): (Vec<&Cause>, Vec<&Cause>) = causes
            .all
            .iter()
            .partition(|cause| cause.statuses.is_none());
        for (head, causes) in heads.into_iter().zip([every, some]) {
            let lines = self.missing(&causes).into_iter();
            let others = causes.iter().filter(|cause| cause.kind != Kind::Missing);
            let lines: Vec<String> = lines
                .chain(others.map(|cause| self.cause(given, cause)))
                .collect();
            if !lines.is_empty() {
                words += &format!("\n{head}\n- {}", lines.join("\n- "));
            }
        }
        if !causes.fewest.is_empty() {
            let groups = causes.fewest.iter();
            let groups = groups.map(|(statuses, rules)| {
                let statuses: Vec<String> = statuses.iter().map(shown_entry).collect();
                format!("{} ({})", and(&statuses), rules_of(rules))
            });
            let groups: Vec<String> = groups.collect();
            words += &format!("\nLeast is in the way of status {}.", groups.join("; "));
        }
        if causes.all.iter().any(|cause| cause.kind == Kind::OnlyZero) {
            words += &format!(
                "\n\"0\" is all that is tried for {}.",
                and(&self.only_zero())
            );
        }
        words
    }

    /// The fields whose list has one entry.
    fn only_zero(&self) -> Vec<String> {
        let one = |field: &u8| list(*field, self.terms).len() == 1;
        let fields = FIELDS.into_iter().filter(one);
        fields.map(|field| field.to_string()).collect()
    }

    /// The fields that must be given, a line for each.
    fn missing(&self, causes: &[&Cause]) -> Vec<String> {
        let of = |field: u8| {
            let missing = causes.iter().filter(|cause| cause.kind == Kind::Missing);
            let named = missing.filter(move |cause| cause.fields.contains(&field));
            named.map(|cause| cause.rule).collect::<Vec<u8>>()
        };
        let lines = FIELDS.into_iter().filter_map(|field| {
            let rules = of(field);
            // What the field must be is said by the rule behind 6.
            let last = *rules.last()?;
            Some(format!(
                "{} must be given: it is blank, and nothing is ever proposed for it; {}: {}.",
                with_name(field),
                rules_of(&rules),
                self.rule_text(last)
            ))
        });
        lines.collect()
    }

    /// A cause of another kind.
    fn cause(&self, given: &Sheet, cause: &Cause) -> String {
        let mut when: Vec<String> = Vec::new();
        let statuses = cause.statuses.as_ref();
        when.extend(statuses.map(|statuses| format!("with {}", self.statuses_of(statuses))));
        if !cause.choices.is_empty() {
            let choices: Vec<String> = cause.choices.iter().map(choice).collect();
            when.push(format!("where {}", choices.join("; or ")));
        }
        let when = match &when[..] {
            [] => String::new(),
            when => format!("{}: ", when.join(", ")),
        };
        let names: Vec<String> = cause.fields.iter().copied().map(with_name).collect();
        let blame = match (cause.kind, &cause.fields[..]) {
            (Kind::Given, []) => "the entries that are tried".to_owned(),
            (Kind::Given, fields) => {
                let verbs = [" is given"].into_iter().chain([""].into_iter().cycle());
                let texts = fields.iter().zip(verbs).map(|(&field, verb)| {
                    let text = quoted(field, given.text(field));
                    format!("{}{verb} as {text}", with_name(field))
                });
                and(&texts.collect::<Vec<_>>())
            }
            (_, [_]) => format!("{} is blank, and only \"0\" is tried for it", and(&names)),
            _ => format!(
                "{} are blank, and only \"0\" is tried for each",
                and(&names)
            ),
        };
        let beside = match &cause.beside[..] {
            [] => String::new(),
            fields => {
                let fields = fields.iter().map(|&field| with_text(given, field));
                format!(" Given: {}.", and(&fields.collect::<Vec<_>>()))
            }
        };
        format!(
            "{when}{blame}; rule {}: {}.{beside}",
            cause.rule,
            self.rule_text(cause.rule)
        )
    }

    /// Statuses of those that are allowed, or all but the others.
    fn statuses_of(&self, statuses: &[Entry]) -> String {
        let named: Vec<String> = statuses.iter().map(shown_entry).collect();
        let others = self
            .statuses
            .iter()
            .filter(|status| !named.contains(status));
        let others: Vec<&String> = others.collect();
        match others.len() * 3 < named.len() {
            true => format!("all but {}", and(&others)),
            false => and(&named),
        }
    }

    /// A broken rule of a sheet, with what is given.
    fn broken(&self, sheet: &Sheet, rule: u8) -> String {
        let field = named(sheet, rule);
        format!(
            "Rule {rule} is broken in field {}: {}. {}",
            with_name(field),
            self.rule_text(rule),
            stands(sheet, field)
        )
    }

    /// Rules 1 to 3 are not all kept.
    fn not_yet(&self, given: &Sheet) -> String {
        let rules = given.broken_rules(self.terms).unwrap_or_default();
        let first = rules.iter().filter(|&rule| rule <= 3);
        let lines = first.map(|rule| format!("\n- {}", self.broken(given, rule)));
        format!(
            "This order can't be completed yet: 14, 15 and 17 tell whether it is a budget \
             payment.{}",
            lines.collect::<String>()
        )
    }

    /// Nothing is proposed to an ordinary order; it is checked as it is.
    fn ordinary(&self, given: &Sheet) -> String {
        let rules = given.broken_rules(self.terms);
        let checked = match rules {
            Ok(rules) if rules.is_empty() => {
                "Checked as an ordinary order, it is accepted.".to_owned()
            }
            rules => self.not_accepted(given, rules.unwrap_or_default()),
        };
        let by: Vec<String> = [14, 15, 17]
            .into_iter()
            .map(|field| with_text(given, field))
            .collect();
        format!(
            "This is an ordinary order, not a budget payment: nothing is proposed.\nIt is so by \
             {}. {CLASSES}\n{checked}",
            and(&by)
        )
    }

    fn not_accepted(&self, given: &Sheet, rules: BrokenRules) -> String {
        let lines = rules
            .iter()
            .map(|rule| format!("\n- {}", self.broken(given, rule)));
        let lines: String = lines.collect();
        format!("Checked as an ordinary order, it is refused.{lines}")
    }
}

/// Rules in a row.
fn rules_of(rules: &[u8]) -> String {
    let numbers: Vec<String> = rules.iter().map(u8::to_string).collect();
    match rules {
        [_] => format!("rule {}", and(&numbers)),
        _ => format!("rules {}", and(&numbers)),
    }
}

/// What fields are filled with.
fn choice(choice: &Choice) -> String {
    let fields: Vec<String> = choice
        .iter()
        .map(|(field, entries)| {
            let entries: Vec<String> = entries
                .iter()
                .map(|entry| format!("\"{}\"", shown_entry(entry)))
                .collect();
            format!("{field} is {}", or(&entries))
        })
        .collect();
    fields.join(" and ")
}

#[cfg(test)]
mod tests {
    use super::*;
    use crate::Date;

    #[test]
    fn strange_answers_have_words() {
        let answer = refused(Refusal::Unknown { number: 77 });
        assert!(answer.ends_with("never answers 77."));
        let of_a_message = refused(Refusal::UnknownParty);
        assert!(of_a_message.ends_with("completion never answers 13."));
        let wording = Wording::new(Terms::given(Date(20240101)));
        let broken = wording.broken(&Sheet::new(), 36);
        assert!(broken.contains(": no rule has this number. "), "{broken}");
    }

    #[test]
    fn numbers_in_letters() {
        assert_eq!([2, 12, 13].map(in_letters), ["two", "twelve", "13"]);
    }
}

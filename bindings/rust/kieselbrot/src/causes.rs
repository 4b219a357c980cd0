//! Why an order can't be completed: all causes, from the rules that it or its fillings break.
//!
//! The library tells the entries of the lists and the rules that a filling breaks. What a rule
//! reads is said here.

use crate::slots::list;
use crate::{broken_rules, Entry, Refusal, Sheet, Terms, FIELDS};

/// What has to be done about a cause.
#[derive(Clone, Copy, Debug, PartialEq, Eq, PartialOrd, Ord)]
pub enum Kind {
    /// A field is blank and has no list: it must be given.
    Missing,
    /// A field is blank and only "0" is tried for it, which breaks a rule.
    OnlyZero,
    /// Texts that are given break a rule, or contradict one another.
    Given,
}

/// A rule that fillings break.
#[derive(Clone, Debug, PartialEq, Eq)]
pub struct Cause {
    /// What has to be done.
    pub kind: Kind,
    /// The number of the rule.
    pub rule: u8,
    /// The field that it names; for rule 6 the first that is missing.
    pub field: u8,
    /// The fields that are to blame: the blank ones, or those that are given.
    pub fields: Vec<u8>,
    /// Other fields that the rule reads and that are given.
    pub beside: Vec<u8>,
    /// The statuses that are tried and that it is for; `None` for all.
    pub statuses: Option<Vec<Entry>>,
    /// What the other fields are filled with in the fillings that it is for, one of these;
    /// none for all.
    pub choices: Vec<Choice>,
}

/// Fields, each filled with one of these entries.
pub type Choice = Vec<(u8, Vec<Entry>)>;

/// All causes, and the statuses with the fewest of them.
#[derive(Clone, Debug, Default, PartialEq, Eq)]
pub struct Causes {
    /// The causes, by kind, then in the order of testing.
    pub all: Vec<Cause>,
    /// Statuses with the fewest rules against them, if they differ in this, and those rules.
    pub fewest: Vec<(Vec<Entry>, Vec<u8>)>,
}

/// What each rule reads beside the class, rule 1 first.
const READS: [&[u8]; 35] = [
    &[14],
    &[15],
    &[17],
    &[101],
    &[17],
    &[22, 60, 61, 101, 102, 103, 104, 105, 106, 107, 108, 109],
    &[22, 17],
    &[60],
    &[61],
    &[101],
    &[102],
    &[103],
    &[104],
    &[105],
    &[106],
    &[107],
    &[108],
    &[109],
    &[17, 101],
    &[17, 101],
    &[22, 101],
    &[22, 17],
    &[60, 101],
    &[60, 22, 101],
    &[108, 60, 22, 101],
    &[108, 101],
    &[102, 60, 101],
    &[104, 17],
    &[106, 101],
    &[107, 101],
    &[109, 101],
    &[108, 106],
    &[108, 106],
    &[109, 106],
    &[108],
];

/// What a rule reads, beside the class, of an order.
fn reads(rule: u8, given: &Sheet) -> Vec<u8> {
    let place = usize::from(rule).wrapping_sub(1);
    let read = READS.get(place).copied().unwrap_or_default();
    let skips: &[u8] = match rule {
        // Four digits are the one form of 22 that asks for an account.
        7 if given.text(22).len() != 4 => &[17],
        // Only "0" asks who pays.
        25 if !matches!(given.text(108), b"" | b"0") => &[60, 22],
        // Only beside 10 digits does a status make a difference.
        27 if given.text(60).len() != 10 => &[101],
        _ => &[],
    };
    let fields = read.iter().copied();
    fields.filter(|field| !skips.contains(field)).collect()
}

/// The field that a rule names, rule 1 first; for rule 6 it is the first blank one.
const NAMES: [u8; 35] = [
    14, 15, 17, 101, 17, 0, 22, 60, 61, 101, 102, 103, 104, 105, 106, 107, 108, 109, 17, 17, 22,
    22, 60, 60, 108, 108, 102, 104, 106, 107, 109, 108, 108, 109, 108,
];

/// The field that a broken rule of a sheet names.
pub(crate) fn named(sheet: &Sheet, rule: u8) -> u8 {
    let place = usize::from(rule).wrapping_sub(1);
    match NAMES.get(place).copied().unwrap_or_default() {
        0 => {
            let mut asked = FIELDS.into_iter().skip(3);
            let blank = asked.find(|&field| sheet.text(field).is_empty());
            blank.unwrap_or_default()
        }
        field => field,
    }
}

/// The place of a rule in the order of testing: 22 is ahead of 21.
pub(crate) const fn place(rule: u8) -> u8 {
    match rule {
        21 => 22,
        22 => 21,
        _ => rule,
    }
}

/// The fields whose entries vary among the fillings of a status.
const VARYING: [u8; 3] = [106, 108, 109];

/// A filling of a status: the entries of the varying fields that are blank, and the set of
/// rules that it breaks.
struct Filling {
    entries: Vec<(u8, Entry)>,
    broken: u64,
}

/// A rule that is named, with the choices that it is for.
#[derive(Clone, PartialEq, Eq)]
struct Named {
    rule: u8,
    choices: Vec<Choice>,
}

/// What is named, and the places of the statuses that it is for.
struct Found {
    named: Named,
    places: Vec<usize>,
}

/// An order that is to be completed.
struct Order<'a> {
    given: &'a Sheet,
    terms: Terms,
}

/// All causes why completing an order with these texts is refused: for
/// [`Refusal::NoFilling`] those of all fillings, for [`Refusal::Broken`] rules 1 to 3. Other
/// refusals say all themselves.
#[must_use]
pub fn of(given: &Sheet, refusal: Refusal, terms: Terms) -> Causes {
    match refusal {
        Refusal::NoFilling { .. } => causes(given, terms),
        Refusal::Broken { .. } => Causes {
            all: basic(given, terms),
            fewest: Vec::new(),
        },
        _ => Causes::default(),
    }
}

/// The broken ones of rules 1 to 3, each of which reads one field.
fn basic(given: &Sheet, terms: Terms) -> Vec<Cause> {
    let rules = broken_rules(given, terms).unwrap_or_default();
    let cause = |rule| {
        let field = named(given, rule);
        Cause {
            kind: match given.text(field) {
                [] => Kind::Missing,
                _ => Kind::Given,
            },
            rule,
            field,
            fields: vec![field],
            beside: Vec::new(),
            statuses: None,
            choices: Vec::new(),
        }
    };
    rules.iter().filter(|&rule| rule <= 3).map(cause).collect()
}

/// All causes why no filling of a budget payment keeps the rules, where that is so.
///
/// For each status that is tried they are the rules that all its fillings break; and, if each
/// of these breaks another one besides, so many of those that each has one.
pub(crate) fn causes(given: &Sheet, terms: Terms) -> Causes {
    let order = Order { given, terms };
    let statuses = order.list(101);
    let tried: Vec<Option<Entry>> = match statuses.is_empty() {
        true => vec![None],
        false => statuses.into_iter().map(Some).collect(),
    };
    let mut found: Vec<Found> = Vec::new();
    for (number, status) in tried.iter().enumerate() {
        for named in order.named(&order.fillings(*status)) {
            match found.iter_mut().find(|found| found.named == named) {
                Some(found) => found.places.push(number),
                None => found.push(Found {
                    named,
                    places: vec![number],
                }),
            }
        }
    }
    let mut all: Vec<Cause> = Vec::new();
    for Found { named, places } in &found {
        let (kind, fields, beside) = order.blame(named.rule);
        let statuses = (places.len() < tried.len()).then(|| {
            let named = places.iter().filter_map(|&place| *tried.get(place)?);
            named.collect()
        });
        all.push(Cause {
            kind,
            rule: named.rule,
            field: match (named.rule, &fields[..]) {
                (6, [first, ..]) => *first,
                (rule, _) => self::named(given, rule),
            },
            fields,
            beside,
            statuses,
            choices: named.choices.clone(),
        });
    }
    all.sort_by_key(|cause| (cause.kind, place(cause.rule)));
    let fewest = fewest(&tried, &found);
    Causes { all, fewest }
}

/// The statuses with the fewest rules against them, by those rules; none if all have as many.
fn fewest(tried: &[Option<Entry>], found: &[Found]) -> Vec<(Vec<Entry>, Vec<u8>)> {
    let rules = |number: usize| {
        let of = found.iter().filter(|found| found.places.contains(&number));
        let mut rules: Vec<u8> = of.map(|found| found.named.rule).collect();
        rules.sort_by_key(|&rule| place(rule));
        rules.dedup();
        rules
    };
    let by_status: Vec<Vec<u8>> = (0..tried.len()).map(rules).collect();
    let least = by_status.iter().map(Vec::len).min().unwrap_or_default();
    if by_status.iter().all(|rules| rules.len() == least) {
        return Vec::new();
    }
    let mut groups: Vec<(Vec<Entry>, Vec<u8>)> = Vec::new();
    for (status, rules) in tried.iter().zip(by_status) {
        let (Some(status), true) = (status, rules.len() == least) else {
            continue;
        };
        match groups.iter_mut().find(|(_, others)| *others == rules) {
            Some((statuses, _)) => statuses.push(*status),
            None => groups.push((vec![*status], rules)),
        }
    }
    groups
}

impl Order<'_> {
    /// The list of a blank field; of any other, none.
    fn list(&self, field: u8) -> Vec<Entry> {
        match self.given.text(field) {
            [] => list(field, self.terms),
            _ => Vec::new(),
        }
    }

    /// All fillings with this status, or with the one that is given.
    fn fillings(&self, status: Option<Entry>) -> Vec<Filling> {
        let mut sheet = *self.given;
        for field in FIELDS {
            let entry = match field {
                101 => status,
                _ => self.list(field).first().copied(),
            };
            sheet = entry.map_or(sheet, |entry| sheet.with(field, &entry));
        }
        let mut chosen: Vec<Vec<(u8, Entry)>> = vec![vec![]];
        for field in VARYING {
            let list = self.list(field);
            if list.is_empty() {
                continue;
            }
            let longer = |entries: &Vec<(u8, Entry)>| {
                let entries = entries.clone();
                let filled = list
                    .iter()
                    .map(move |&entry| [&entries[..], &[(field, entry)]].concat());
                filled.collect::<Vec<_>>()
            };
            chosen = chosen.iter().flat_map(longer).collect();
        }
        let filling = |entries: Vec<(u8, Entry)>| {
            let put = |sheet: Sheet, (field, entry): &(u8, Entry)| sheet.with(*field, entry);
            let filled = entries.iter().fold(sheet, put);
            let rules = filled.broken_rules(self.terms);
            Filling {
                entries,
                broken: rules.map(|rules| rules.bits()).unwrap_or_default(),
            }
        };
        chosen.into_iter().map(filling).collect()
    }

    /// The rules that are named for the fillings of a status, each with the choices that it is
    /// for.
    fn named(&self, fillings: &[Filling]) -> Vec<Named> {
        let sets = fillings.iter().map(|filling| filling.broken);
        let common = sets.fold(u64::MAX, |common, set| common & set);
        let whole = |rule| Named {
            rule,
            choices: vec![],
        };
        let mut named: Vec<Named> = bits(common).map(whole).collect();
        let mut left: Vec<u64> = fillings
            .iter()
            .map(|filling| filling.broken & !common)
            .collect();
        if left.contains(&0) {
            return named;
        }
        // The rule that most of those left break, until each has one.
        while !left.is_empty() {
            let breaking = |rule: u8| left.iter().filter(|&&set| set >> rule & 1 == 1).count();
            let all = left.iter().fold(0, |all, set| all | set);
            // The first of equals.
            let Some(rule) = bits(all).rev().max_by_key(|&rule| breaking(rule)) else {
                break;
            };
            left.retain(|set| set >> rule & 1 == 0);
            let choices = self.choices(rule, fillings);
            named.push(Named { rule, choices });
        }
        named
    }

    /// What the fields that a rule reads are filled with in the fillings that break it.
    fn choices(&self, rule: u8, fillings: &[Filling]) -> Vec<Choice> {
        let read = reads(rule, self.given);
        let mut choices: Vec<Choice> = Vec::new();
        for filling in fillings {
            if filling.broken >> rule & 1 == 0 {
                continue;
            }
            let entries = filling.entries.iter();
            let read = entries.filter(|(field, _)| read.contains(field));
            let choice: Choice = read.map(|&(field, entry)| (field, vec![entry])).collect();
            if !choices.contains(&choice) {
                choices.push(choice);
            }
        }
        // Those that differ in one field become one, the later field first.
        for field in VARYING.into_iter().rev() {
            choices = joined(choices, field);
        }
        choices
    }

    /// What has to be done about a rule, the fields that are to blame, and those beside them.
    fn blame(&self, rule: u8) -> (Kind, Vec<u8>, Vec<u8>) {
        let read = reads(rule, self.given);
        let is_blank = |field: &u8| self.given.text(*field).is_empty();
        let listed = |field: u8| list(field, self.terms).len();
        let (blank, given): (Vec<u8>, Vec<u8>) = read.into_iter().partition(is_blank);
        let of = |count: usize| {
            blank
                .iter()
                .copied()
                .filter(move |&field| listed(field) == count)
        };
        let (missing, zero): (Vec<u8>, Vec<u8>) = (of(0).collect(), of(1).collect());
        match rule {
            6 => (Kind::Missing, missing, vec![]),
            _ if !missing.is_empty() => (Kind::Missing, missing, given),
            _ if !zero.is_empty() => (Kind::OnlyZero, zero, given),
            _ => (Kind::Given, given, vec![]),
        }
    }
}

/// Choices that differ in this field alone, as one.
fn joined(choices: Vec<Choice>, field: u8) -> Vec<Choice> {
    let others = |choice: &Choice| -> Choice {
        let others = choice.iter().filter(|(other, _)| *other != field);
        others.cloned().collect()
    };
    let mut joined: Vec<Choice> = Vec::new();
    for choice in choices {
        let same = joined
            .iter_mut()
            .find(|other| others(other) == others(&choice));
        let Some(same) = same else {
            joined.push(choice);
            continue;
        };
        let more = choice.into_iter().filter(|(other, _)| *other == field);
        for ((_, entries), (_, more)) in same.iter_mut().filter(|(f, _)| *f == field).zip(more) {
            entries.extend(more);
        }
    }
    joined
}

/// The rules of a set, ascending.
fn bits(set: u64) -> impl DoubleEndedIterator<Item = u8> {
    (1..=35).filter(move |&rule| set >> rule & 1 == 1)
}

#[cfg(test)]
mod tests {
    use super::*;
    use crate::Date;
    use cases::{budget, disturb, Random, Texts};

    fn broken(texts: &Texts) -> u64 {
        let rules = Sheet::from(texts.sheet()).broken_rules(Terms::given(Date(20240101)));
        rules.map(|rules| rules.bits()).unwrap_or_default()
    }

    /// Changing a field changes only rules that read it; 14, 15 and 17 tell the class.
    #[test]
    fn rules_read_no_other_fields() {
        let mut random = Random::new(3);
        let mut read = [0; 36];
        for _ in 0..200_000 {
            let before = budget(&mut random);
            let mut after = before;
            disturb(&mut random, &mut after);
            let changed = |field: &u8| before.get(*field) != after.get(*field);
            let Some(field) = FIELDS.into_iter().find(changed) else {
                continue;
            };
            let rules = broken(&before) ^ broken(&after);
            for rule in bits(rules).filter(|_| ![14, 15, 17].contains(&field)) {
                let reads = |texts: &Texts| reads(rule, &texts.sheet().into()).contains(&field);
                assert!(
                    reads(&before) || reads(&after),
                    "rule {rule}, field {field}"
                );
                read[usize::from(rule)] += 1;
            }
        }
        let unread: Vec<usize> = (6..=35).filter(|&rule| read[rule] == 0).collect();
        // 22 and 28 want a change to "0" beside one beginning of 17.
        assert!(
            unread.iter().all(|rule| [20, 22, 28].contains(rule)),
            "{unread:?}"
        );
    }
}

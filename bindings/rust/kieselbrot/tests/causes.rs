//! The words of generated orders, held to the second implementation over all their fillings:
//! each cause that they name is one, and none is left out.
//!
//! `WORDS=1000000` says how many orders there are.

use std::collections::{BTreeMap, BTreeSet};
use std::env;

use cases::{blanked, budget_at, disturb_at, fillings_at, fit_dates, list_at};
use cases::{Dates, Random, Texts, ALL_STATUSES, FIELDS};
use kieselbrot::words::{explanation, visible};
use kieselbrot::{windows1251, Date, Record, Terms, TEXT_MAX};

/// So many orders if nothing else is said.
const ORDERS: usize = 100_000;

/// A rule that a line of words names, and the fillings that it is for.
#[derive(Debug)]
struct Named {
    rules: Vec<u8>,
    /// All if there is none.
    statuses: Option<Vec<String>>,
    /// Any of these; all if there is none. Each field has one of the entries.
    choices: Vec<Vec<(u8, Vec<String>)>>,
}

impl Named {
    fn is_for(&self, filling: &Filling) -> bool {
        let status = windows1251::text(&filling.texts.get(101));
        let text = |field: u8| windows1251::text(&filling.texts.get(field));
        let chosen = |choice: &Vec<(u8, Vec<String>)>| {
            let mut fields = choice.iter();
            fields.all(|(field, entries)| entries.contains(&text(*field)))
        };
        let statuses = self.statuses.as_ref();
        statuses.is_none_or(|statuses| statuses.contains(&status))
            && (self.choices.is_empty() || self.choices.iter().any(chosen))
    }
}

/// A filling, and the rules that it breaks by the second implementation.
struct Filling {
    texts: Texts,
    broken: u64,
}

impl Filling {
    fn breaks(&self, rule: u8) -> bool {
        self.broken >> rule & 1 == 1
    }
}

/// Items in a row, with "and" or "or" before the last.
fn items(row: &str) -> Vec<String> {
    let parts = row.split(", ").flat_map(|part| part.split(" and "));
    let parts = parts.flat_map(|part| part.split(" or "));
    parts
        .map(|item| item.trim_matches('"').to_owned())
        .collect()
}

/// The cause that a line names, below the dash.
fn named(line: &str, dates: Dates) -> Named {
    let is_for_some = line.starts_with("with ") || line.starts_with("where ");
    let (when, what) = match is_for_some {
        true => line.split_once(": ").expect("what is in the way"),
        false => ("", line),
    };
    let (with, place) = match when.split_once("where ") {
        Some((with, place)) => (with.trim_end_matches(", "), place),
        None => (when, ""),
    };
    let statuses = with
        .strip_prefix("with ")
        .map(|row| match row.strip_prefix("all but ") {
            Some(row) => {
                let but = items(row);
                let all = dates.statuses().into_iter().map(str::to_owned);
                all.filter(|status| !but.contains(status)).collect()
            }
            None => items(row),
        });
    let choices = place.split("; or ").filter(|choice| !choice.is_empty());
    let choices = choices.map(|choice| {
        let fields = choice.split(" and ");
        let fields = fields.map(|field| {
            let (field, entries) = field.split_once(" is ").expect("a field's entries");
            (field.parse().expect("a field"), items(entries))
        });
        fields.collect()
    });
    let (_, rules) = what.split_once("; rule").expect("a rule");
    let (rules, _) = rules.split_once(": ").expect("what it wants");
    let rules = items(rules.trim_start_matches('s').trim_start());
    let rules = rules.iter().map(|rule| rule.parse().expect("a rule"));
    Named {
        rules: rules.collect(),
        statuses,
        choices: choices.collect(),
    }
}

/// The fields of a line are blank or given, as it says.
fn hold_fields(given: &Texts, line: &str) {
    let what = match line.starts_with("with ") || line.starts_with("where ") {
        true => line.split_once(": ").expect("what is in the way").1,
        false => line,
    };
    let (blame, _) = what.split_once("; rule").expect("a rule");
    let field = |words: &str| -> u8 {
        let number = words.split(' ').next().expect("a field");
        number.parse().expect("a field")
    };
    if let Some((missing, _)) = blame.split_once(" must be given: ") {
        let field = field(missing);
        assert!([61, 103].contains(&field) && given.get(field).is_empty());
    } else if let Some((names, _)) = blame.split_once(", and only \"0\" is tried for ") {
        let names = names.trim_end_matches(" is blank");
        for name in names.trim_end_matches(" are blank").split(" and ") {
            let field = field(name);
            assert!([22, 60, 102, 104, 105, 107].contains(&field), "{line}");
            assert!(given.get(field).is_empty(), "{line}");
        }
    } else if blame != "the entries that are tried" {
        assert!(blame.contains(" is given as \""), "{line}");
        let shown = |field: &u8| {
            let text = given.get(*field);
            let shown = format!(" as \"{}\"", visible(&text));
            blame.contains(&format!("{field} (")) && !text.is_empty() && blame.contains(&shown)
        };
        assert!(FIELDS.iter().any(shown), "{line}");
    }
}

/// What the words of an order that no filling completes say is so, and is all.
fn hold_causes(given: &Texts, dates: Dates, words: &str, fillings: &[Filling]) {
    let lines = words.lines().filter_map(|line| line.strip_prefix("- "));
    let causes: Vec<Named> = lines
        .inspect(|line| hold_fields(given, line))
        .map(|line| named(line, dates))
        .collect();
    // True: each filling that a rule is named for breaks it, and there is one.
    for cause in &causes {
        let of = fillings.iter().filter(|filling| cause.is_for(filling));
        let mut count = 0;
        for filling in of {
            count += 1;
            for &rule in &cause.rules {
                assert!(filling.breaks(rule), "rule {rule}: {words}");
            }
        }
        assert!(count > 0, "{cause:?}: {words}");
    }
    // All: each rule that all fillings of a status break is named for it.
    let mut by_status: BTreeMap<Vec<u8>, Vec<&Filling>> = BTreeMap::new();
    for filling in fillings {
        let status = filling.texts.get(101).to_vec();
        by_status.entry(status).or_default().push(filling);
    }
    let mut against: BTreeMap<String, BTreeSet<u8>> = BTreeMap::new();
    for (status, fillings) in &by_status {
        let common = fillings
            .iter()
            .fold(u64::MAX, |all, filling| all & filling.broken);
        for rule in (1..=35).filter(|rule| common >> rule & 1 == 1) {
            let is_named = |cause: &Named| {
                cause.rules.contains(&rule) && fillings.iter().all(|filling| cause.is_for(filling))
            };
            assert!(causes.iter().any(is_named), "rule {rule}: {words}");
        }
        // And each filling has one, beside those where each breaks others, too.
        let more = fillings.iter().all(|filling| filling.broken & !common != 0);
        let left = if more { common } else { 0 };
        for filling in fillings {
            let has_one = |cause: &Named| {
                cause.is_for(filling) && cause.rules.iter().any(|rule| left >> rule & 1 == 0)
            };
            assert!(causes.iter().any(has_one), "{words}");
        }
        let of = causes
            .iter()
            .filter(|cause| fillings.iter().any(|filling| cause.is_for(filling)));
        let rules = of.flat_map(|cause| cause.rules.iter().copied());
        against.insert(windows1251::text(status), rules.collect());
    }
    // The statuses that least is in the way of are those with the fewest rules.
    let least = against
        .values()
        .map(BTreeSet::len)
        .min()
        .unwrap_or_default();
    let told = words
        .lines()
        .find_map(|line| line.strip_prefix("Least is in the way of status "));
    let is_even = against.values().all(|rules| rules.len() == least);
    assert_eq!(told.is_none(), is_even, "{words}");
    let mut named: BTreeMap<String, BTreeSet<u8>> = BTreeMap::new();
    for group in told
        .unwrap_or_default()
        .trim_end_matches('.')
        .split("; ")
        .filter(|g| !g.is_empty())
    {
        let (statuses, rules) = group.split_once(" (rule").expect("rules");
        let rules = items(
            rules
                .trim_start_matches('s')
                .trim_start()
                .trim_end_matches(')'),
        );
        let rules: BTreeSet<u8> = rules
            .iter()
            .map(|rule| rule.parse().expect("a rule"))
            .collect();
        for status in items(statuses) {
            named.insert(status, rules.clone());
        }
    }
    if !is_even {
        against.retain(|_, rules| rules.len() == least);
        assert_eq!(named, against, "{words}");
    }
}

/// The proposed values, and what would do in their places.
fn hold_proposed(given: &Texts, dates: Dates, words: &str, first: &Filling) {
    let accepts = |texts: &Texts| second(texts, dates) == 0;
    let mut lines = words.lines().filter_map(|line| line.strip_prefix("- "));
    for field in FIELDS {
        let tried = list_at(field, dates);
        if !given.get(field).is_empty() || tried.is_empty() {
            continue;
        }
        let line = lines.next().expect("a line for each that is filled");
        let value = first.texts.get(field);
        let head = format!(": \"{}\"", windows1251::text(&value));
        assert!(line.starts_with(&format!("{field} (")), "{words}");
        let (_, rest) = line.split_once(&head).expect("its value");
        let would_do = tried
            .iter()
            .filter(|entry| accepts(&first.texts.with(field, entry)));
        let would_do: Vec<String> = would_do.map(|entry| windows1251::text(entry)).collect();
        assert_eq!(would_do[0], windows1251::text(&value), "{words}");
        let others = would_do[1..].join(" ");
        match (tried.len(), would_do.len()) {
            (1, _) => assert_eq!(rest, "; nothing else is tried."),
            (_, 1) => assert!(rest.ends_with(" tried that would do."), "{line}"),
            (_, 2) => assert!(rest.ends_with(&format!(" two that would do; the other: {others}."))),
            _ => assert!(rest.ends_with(&format!(" that would do; the others: {others}."))),
        }
        let count = [
            "", "", "two", "three", "four", "five", "six", "seven", "eight", "nine", "ten",
        ];
        if let Some(count) = count.get(would_do.len()).filter(|count| !count.is_empty()) {
            let of = format!(" is the first of {count} that would do; ");
            assert!(rest.starts_with(&of), "{line}");
        }
    }
    assert_eq!(lines.next(), None, "{words}");
}

/// The rules that lines "Rule N is broken .." name.
fn rules_in(words: &str) -> u64 {
    let lines = words
        .lines()
        .filter_map(|line| line.strip_prefix("- Rule "));
    lines.fold(0, |set, line| {
        let (rule, _) = line.split_once(' ').expect("a rule");
        set | 1 << rule.parse::<u8>().expect("a rule")
    })
}

/// The rules that a sheet breaks by the second implementation.
fn second(texts: &Texts, dates: Dates) -> u64 {
    let [first32, first33, last02] = dates.entries().map(reference::Date);
    let record = reference::Record {
        first32,
        first33,
        last02,
    };
    let rules = reference::broken_rules(&texts.sheet(), reference::Date(dates.order), record);
    rules.expect("a sheet and dates")
}

/// What an order's words were about.
#[derive(Clone, Copy, Debug, PartialEq, Eq, PartialOrd, Ord)]
enum About {
    NotYet,
    Ordinary,
    Completed,
    Causes,
    /// With causes that are for a part of a status's fillings.
    Choices,
}

fn hold(given: &Texts, dates: Dates) -> About {
    let draft = given.draft(|text| u32::from(!text.is_empty()));
    let [first32, first33, last02] = dates.entries().map(Date);
    let record = Record {
        first32,
        first33,
        last02,
    };
    let words = explanation(&draft, Terms::new(Date(dates.order), record));
    let as_given = second(given, dates);
    let first_three = as_given & 0b1110;
    if first_three != 0 {
        assert!(
            words.starts_with("This order can't be completed yet: "),
            "{words}"
        );
        assert_eq!(rules_in(&words), first_three, "{words}");
        return About::NotYet;
    }
    if words.starts_with("This is an ordinary order") {
        assert_eq!(rules_in(&words), as_given, "{words}");
        assert_eq!(words.ends_with(" it is accepted."), as_given == 0);
        return About::Ordinary;
    }
    let fillings: Vec<Filling> = fillings_at(given, dates)
        .into_iter()
        .map(|texts| Filling {
            broken: second(&texts, dates),
            texts,
        })
        .collect();
    if let Some(first) = fillings.iter().find(|filling| filling.broken == 0) {
        assert!(
            words.starts_with("This order can be completed: "),
            "{words}"
        );
        hold_proposed(given, dates, &words, first);
        return About::Completed;
    }
    assert!(
        words.starts_with("This order can't be completed: "),
        "{words}"
    );
    hold_causes(given, dates, &words, &fillings);
    match words.contains("where ") {
        true => About::Choices,
        false => About::Causes,
    }
}

/// An order near one that keeps the rules, mostly with blanks and what breaks rules.
fn order(random: &mut Random, dates: Dates) -> Texts {
    let mut texts = budget_at(random, dates);
    for _ in 0..random.below(4) {
        disturb_at(random, &mut texts, dates);
    }
    // A text may have got too long.
    for field in FIELDS {
        let text = texts.get(field);
        texts = texts.with(field, &text[..text.len().min(TEXT_MAX)]);
    }
    // 106, 108 and 109 blank, one or all, so that fillings differ.
    let any = random_set(random);
    let blank = random.pick(&[0, 0, 0, 1 << 6, 1 << 8, 1 << 9, any]);
    let mut texts = blanked(texts, blank | random_set(random) & 0x3F);
    if random.percent(45) {
        texts = texts.with(101, random.pick(&ALL_STATUSES).as_bytes());
    }
    for field in [61, 103] {
        if random.percent(5) {
            texts = texts.without(&[field]);
        }
    }
    if random.percent(15) {
        texts = texts.with(109, random.pick(&[&b"00"[..], b"0", b"01.02.2024"]));
    }
    if random.percent(15) {
        texts = texts.with(108, random.pick(&[&b"00"[..], b"0", b"5"]));
    }
    texts
}

fn random_set(random: &mut Random) -> usize {
    random.below(1024) & random.below(1024)
}

#[test]
fn words_name_all_causes_and_no_others() {
    let orders = env::var("WORDS")
        .ok()
        .and_then(|orders| orders.parse().ok());
    let mut random = Random::new(20240101);
    let mut about: BTreeMap<About, usize> = BTreeMap::new();
    for _ in 0..orders.unwrap_or(ORDERS) {
        let dates = match random.percent(50) {
            true => Dates::PROGRAM,
            false => fit_dates(&mut random),
        };
        let given = order(&mut random, dates);
        *about.entry(hold(&given, dates)).or_default() += 1;
    }
    println!("{about:?}");
    assert_eq!(about.len(), 5, "{about:?}");
}

/// Two texts that contradict each other only through what 106 is filled with.
#[test]
fn a_cause_for_each_entry() {
    let given = Texts::s()
        .with(101, b"06")
        .with(107, b"10000000")
        .with(106, b"")
        .with(108, b"5")
        .with(109, b"00");
    assert_eq!(hold(&given, Dates::PROGRAM), About::Choices);
}

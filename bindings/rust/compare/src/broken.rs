//! All broken rules of a sheet: beside the answer of a check, and what was reached of them.

use std::fmt;

use cases::{class_a, Dates, Random, Texts, FIELDS};
use kieselbrot::{BrokenRules, Class, Refusal};

use crate::comparison::{same, Comparison, Difference};
use crate::library::Library;

type Outcome = Result<(), Difference>;

/// What asking for all broken rules reached.
#[derive(Clone, Copy, Debug, PartialEq, Eq, PartialOrd, Ord)]
pub enum Broke {
    /// This rule, behind one that is named.
    Behind(u8),
    /// Ten rules or more.
    Ten,
    /// One of rules 1 to 3, and one of those for classes A and B.
    BasicAndOthers,
    /// Of an ordinary payment rule 4 with one of rules 1 to 3.
    BasicAndFourth,
}

impl fmt::Display for Broke {
    fn fmt(&self, f: &mut fmt::Formatter<'_>) -> fmt::Result {
        match self {
            Self::Behind(rule) => write!(f, "rule {rule} behind another"),
            Self::Ten => f.write_str("ten or more"),
            Self::BasicAndOthers => f.write_str("one of 1 to 3, and of 5 to 35"),
            Self::BasicAndFourth => f.write_str("one of 1 to 3, and 4"),
        }
    }
}

/// Rule 1 is tested first, and stands behind none.
pub fn all() -> impl Iterator<Item = Broke> {
    let others = [Broke::Ten, Broke::BasicAndOthers, Broke::BasicAndFourth];
    (2..=BrokenRules::LAST).map(Broke::Behind).chain(others)
}

/// What a set reached.
pub fn reached(answer: Result<BrokenRules, Refusal>) -> Vec<Broke> {
    let Ok(rules) = answer else {
        return Vec::new();
    };
    let first = first_tested(rules);
    let behind = rules.iter().filter(|&rule| Some(rule) != first);
    let mut reached: Vec<Broke> = behind.map(Broke::Behind).collect();
    let basic = (1..=3).any(|rule| rules.contains(rule));
    if rules.len() >= 10 {
        reached.push(Broke::Ten);
    }
    if basic && rules.iter().any(|rule| rule >= 5) {
        reached.push(Broke::BasicAndOthers);
    }
    if basic && rules.contains(4) {
        reached.push(Broke::BasicAndFourth);
    }
    reached
}

/// The first of a set in the order of testing: "22 is tested ahead of 21".
fn first_tested(rules: BrokenRules) -> Option<u8> {
    rules.iter().min_by_key(|&rule| match rule {
        22 => 41,
        rule => 2 * u32::from(rule),
    })
}

/// The set is empty where a check accepts; else a check names the first of it.
pub fn fits_check(
    checked: Result<Class, Refusal>,
    answer: Result<BrokenRules, Refusal>,
    input: impl Fn() -> String,
) -> Outcome {
    let named = match checked {
        Ok(_) => Ok(None),
        Err(Refusal::Broken { rule, .. }) => Ok(Some(rule)),
        Err(refusal) => Err(refusal),
    };
    same("broken_rules", answer.map(first_tested), named, input)
}

/// Every two fields of orders of classes A, B and O with texts that break rules.
pub fn pairs<L: Library>(comparison: &mut Comparison<'_, L>, random: &mut Random) -> Outcome {
    let b = Texts::s()
        .with(14, b"044525000")
        .with(15, b"")
        .with(17, b"40503810000004000000");
    let o = Texts::s().with(15, b"").with(101, b"");
    let texts: [&[u8]; 6] = [b"", b"0", b"00", b"1", b"31", b"14;1"];
    for (place, field) in FIELDS.into_iter().enumerate() {
        for other in FIELDS.into_iter().skip(place + 1) {
            for text in texts {
                for another in texts {
                    for order in [Texts::s(), b, o, class_a(random, "06")] {
                        let texts = order.with(field, text).with(other, another);
                        let _ = comparison.check(&texts.sheet(), Dates::PROGRAM)?;
                    }
                }
            }
        }
    }
    Ok(())
}

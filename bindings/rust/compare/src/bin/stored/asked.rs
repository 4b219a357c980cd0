//! What else may be asked: all rules that a sheet breaks, the entries of a list, and which
//! message each slot holds.

use std::collections::HashSet;

use cases::{list_at, sheets, Dates, Texts, FIELDS, LISTS};
use compare::{Library, Reference};

use crate::example::{with_dates, Example, Kind};
use crate::{parties, reports};

/// All: sheets, entries, streams.
pub fn all() -> Vec<Example> {
    [broken(), entries(), streams()].concat()
}

/// `ok` and the set as a number, or the refusal's number.
pub fn broken_rules(sheet: &[u8], dates: Dates) -> Vec<u8> {
    match Reference.broken_rules(sheet, dates) {
        Ok(rules) => format!("ok {}", rules.bits()).into_bytes(),
        Err(refusal) => refusal.number().to_string().into_bytes(),
    }
}

/// `ok LENGTH FIRST SECOND`, the entry's length and its two bytes, `ok none`, or the
/// refusal's number; asked by a place of two bytes and a field's number.
pub fn entry(asked: &[u8], dates: Dates) -> Vec<u8> {
    let place = usize::from(u16::from_be_bytes([asked[0], asked[1]]));
    match Reference.entry(asked[2], place, dates) {
        Ok(Some(text)) => {
            let byte = |place: usize| text.get(place).copied().unwrap_or(0);
            format!("ok {} {} {}", text.len(), byte(0), byte(1)).into_bytes()
        }
        Ok(None) => b"ok none".to_vec(),
        Err(refusal) => refusal.number().to_string().into_bytes(),
    }
}

/// `ok` and the fifteen numbers.
pub fn origins(input: &[u8]) -> Vec<u8> {
    let numbers = Reference.origins(input).map(|number| format!(" {number}"));
    format!("ok{}", numbers.concat()).into_bytes()
}

/// The first sheet of each verdict of the table, an all blank one, those of another size and
/// with a pad byte, S at a date that is refused, and status 02 with each list.
fn broken() -> Vec<Example> {
    let example = |name: &str, sheet: &[u8], dates: Dates| {
        let name = format!("broken rules: {name}");
        Example::new(Kind::BrokenRulesAt, name, &with_dates(dates, sheet))
    };
    let s = Texts::s();
    let mut verdicts = HashSet::new();
    let mut examples: Vec<Example> = sheets()
        .iter()
        .filter(|case| verdicts.insert(case.verdict.clone()))
        .map(|case| example(case.name, &case.texts.sheet(), Dates::PROGRAM))
        .collect();
    examples.push(example("all blank", &[0; 390], Dates::PROGRAM));
    examples.push(example("389 bytes", &[0; 389], Dates::PROGRAM));
    let mut padded = s.sheet();
    padded[389] = 1;
    examples.push(example("a pad byte", &padded, Dates::PROGRAM));
    let early = Dates::given(20230924);
    examples.push(example("a date before the first", &s.sheet(), early));
    examples.push(example("a pad byte at such a date", &padded, early));
    let ended = Dates::given(20231015);
    let changed = s.with(101, b"02").sheet();
    for list in LISTS {
        let name = format!("status 02, allowed {list:?}");
        examples.push(example(&name, &changed, ended.allowing(list)));
    }
    examples
}

/// Of every field, and of numbers that are none, the first, the last and the place behind
/// the last, with each list of statuses; and what is refused with 12.
fn entries() -> Vec<Example> {
    let example = |place: usize, field: u8, dates: Dates| {
        let name = format!("entry {place} of {field} at {dates:?}");
        let asked = [&(place as u16).to_be_bytes()[..], &[field]].concat();
        Example::new(Kind::EntryAt, name, &with_dates(dates, &asked))
    };
    let mut examples = Vec::new();
    for list in LISTS {
        let dates = Dates::given(20231015).allowing(list);
        for field in FIELDS {
            let length = list_at(field, dates).len();
            let mut places = vec![0, length.saturating_sub(1), length];
            places.dedup();
            examples.extend(places.iter().map(|&place| example(place, field, dates)));
        }
    }
    let statuses = list_at(101, Dates::PROGRAM).len();
    examples.extend((1..statuses - 1).map(|place| example(place, 101, Dates::PROGRAM)));
    examples.extend([0, 16, 110, 255].map(|field| example(0, field, Dates::PROGRAM)));
    examples.push(example(65_535, 101, Dates::PROGRAM));
    let early = Dates::given(20230924);
    examples.extend([13, 101].map(|field| example(0, field, early)));
    examples
}

/// The inputs of the reports, but for those of the greatest sizes.
fn streams() -> Vec<Example> {
    let mut reports = [reports::all(), parties::all()].concat();
    reports.retain(|example| example.kind == Kind::Report && example.bytes.len() < 2_000);
    let origins =
        |of: &Example| Example::new(Kind::Origins, format!("origins: {}", of.name), &of.bytes);
    reports.iter().map(origins).collect()
}

#[cfg(test)]
mod tests {
    use super::*;
    use crate::example::has_line;

    #[test]
    fn lines_by_hand() {
        let examples = all();
        has_line(&examples, "broken rules: S", "ok 0");
        has_line(&examples, "broken rules: a date before the first", "12");
        has_line(&examples, "broken rules: a pad byte at such a date", "1");
        let dates = Dates::PROGRAM;
        has_line(
            &examples,
            &format!("entry 1 of 101 at {dates:?}"),
            "ok 2 48 51",
        );
        has_line(&examples, &format!("entry 0 of 16 at {dates:?}"), "4");
        has_line(
            &examples,
            &format!("entry 65535 of 101 at {dates:?}"),
            "ok none",
        );
    }
}

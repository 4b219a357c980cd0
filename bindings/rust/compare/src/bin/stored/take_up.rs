//! Proposals of which a part is taken up.

use cases::{message, slot_of, Dates, Texts, BLANKS, FIELDS, FILLABLE, LISTS};

use crate::dates::{found, hopeless};
use crate::example::{with_dates, with_set, Example, Kind};
use crate::reports::order;

/// All: parts of one proposal, a part with each of the eight lists, revisions, each cause of
/// 20, and completions that are refused.
pub fn all() -> Vec<Example> {
    [parts(), lists(), revisions(), causes(), lowest(), refused()].concat()
}

fn take_up(name: impl AsRef<str>, texts: &Texts, set: u16) -> Example {
    take_up_bytes(name, &order(texts), set, Dates::PROGRAM)
}

pub fn take_up_bytes(name: impl AsRef<str>, messages: &[u8], set: u16, dates: Dates) -> Example {
    let name = format!("take up: {}", name.as_ref());
    let bytes = with_dates(dates, &with_set(set, messages));
    Example::new(Kind::TakeUpAt, name, &bytes)
}

const BIT_15: u16 = 1 << 15;

pub fn set_of(fields: &[u8]) -> u16 {
    let add = |set, &field: &u8| set | 1 << slot_of(field);
    fields.iter().fold(0, add)
}

/// The fields as a name.
fn shown(fields: &[u8]) -> String {
    match fields {
        [] => "nothing".to_owned(),
        _ => {
            let fields: Vec<String> = fields.iter().map(u8::to_string).collect();
            fields.join(", ")
        }
    }
}

/// Class B with ten blanks.
fn ten_blanks() -> Texts {
    let class_b = Texts::s().with(14, b"044525000").with(15, b"");
    class_b.with(17, b"40503810000004000000").without(&FILLABLE)
}

/// Parts of the proposal at count 97, then of one with ten blanks.
fn parts() -> Vec<Example> {
    let some: [&[u8]; 8] = [
        &[101],
        &[106],
        &[108],
        &[109],
        &[106, 108, 109],
        &[22, 105, 107],
        &[],
        &BLANKS,
    ];
    let mut examples = some
        .map(|part| take_up(shown(part), &found(), set_of(part)))
        .to_vec();
    for field in FILLABLE {
        let name = format!("{field} of ten");
        examples.push(take_up(name, &ten_blanks(), set_of(&[field])));
    }
    examples.push(take_up("all of ten", &ten_blanks(), set_of(&FILLABLE)));
    examples
}

/// The status, and all but the status, with each list.
fn lists() -> Vec<Example> {
    let mut examples = Vec::new();
    for list in LISTS {
        let dates = Dates::given(20231015).allowing(list);
        let [s02, s32, s33] = list.map(u8::from);
        let status = set_of(&[101]);
        for (what, set) in [("101", status), ("all but 101", set_of(&BLANKS) & !status)] {
            let name = format!("02, 32, 33 allowed: {s02} {s32} {s33}, {what}");
            examples.push(take_up_bytes(name, &order(&found()), set, dates));
        }
    }
    examples
}

/// A blank status with this revision.
fn blanked(revision: u32) -> Vec<u8> {
    [order(&found()), message(101, revision, b"")].concat()
}

/// A blanked status, up to the greatest revision but one.
fn revisions() -> Vec<Example> {
    let example = |revision| {
        let name = format!("101 blanked with revision {revision}");
        take_up_bytes(name, &blanked(revision), set_of(&[101]), Dates::PROGRAM)
    };
    [1, 255, 65_535, u32::MAX - 1].map(example).to_vec()
}

/// Each cause of 20: bit 15, no list, given, nothing proposed, the greatest revision.
fn causes() -> Vec<Example> {
    let mut examples = vec![take_up("bit 15", &found(), BIT_15)];
    let open = found();
    let given = FIELDS
        .into_iter()
        .filter(|&field| !open.get(field).is_empty());
    for field in given {
        let name = format!("{field} given");
        examples.push(take_up(name, &open, set_of(&[field])));
    }
    for field in [14, 15, 17, 61, 103] {
        let name = format!("{field} without a list, blank");
        examples.push(take_up(name, &open.without(&[field]), set_of(&[field])));
    }
    for field in BLANKS {
        let name = format!("{field} of a hopeless order");
        examples.push(take_up(name, &hopeless(), set_of(&[field])));
        let name = format!("{field} with the greatest revision");
        let messages = [order(&open), message(field, u32::MAX, b"")].concat();
        let set = set_of(&[field]);
        examples.push(take_up_bytes(name, &messages, set, Dates::PROGRAM));
    }
    examples
}

/// Of several that can't be taken up, the lowest slot's.
fn lowest() -> Vec<Example> {
    let whole = set_of(&BLANKS);
    let greatest = blanked(u32::MAX);
    vec![
        take_up("bit 15 and the proposal", &found(), whole | BIT_15),
        take_up("60 and the proposal", &found(), whole | set_of(&[60])),
        take_up("61 and 60", &found(), set_of(&[60, 61])),
        take_up("every bit", &found(), u16::MAX),
        take_up(
            "every bit but 14, 15 and 17",
            &found(),
            !set_of(&[14, 15, 17]),
        ),
        take_up_bytes(
            "the proposal, 101 with the greatest revision",
            &greatest,
            whole,
            Dates::PROGRAM,
        ),
        take_up_bytes(
            "the proposal but 101 with the greatest revision",
            &greatest,
            whole & !set_of(&[101]),
            Dates::PROGRAM,
        ),
    ]
}

/// Completions that are refused, before and after nothing is taken up.
fn refused() -> Vec<Example> {
    let nothing = |name: &str, texts: &Texts, date| {
        let name = format!("nothing of {name}");
        take_up_bytes(name, &order(texts), 0, Dates::given(date))
    };
    vec![
        nothing("a fresh draft", &Texts::BLANK, 20240101),
        nothing("a hopeless order", &hopeless(), 20240101),
        nothing("an ordinary order", &found().without(&[15]), 20240101),
        nothing("an order at 20230924", &found(), 20230924),
        take_up("bit 15 of a fresh draft", &Texts::BLANK, BIT_15),
    ]
}

#[cfg(test)]
mod tests {
    use super::*;
    use crate::example::has_line;

    #[track_caller]
    fn is(name: &str, line: &str) {
        has_line(&all(), &format!("take up: {name}"), line);
    }

    /// The line of a proposal that is completed again, with these slots left.
    fn again(count: usize, left: &[u8], status: &str) -> String {
        format!("ok ok {count} {} {} {status}", set_of(left), left.len())
    }

    fn without(fields: &[u8], part: &[u8]) -> Vec<u8> {
        let mut left = fields.to_vec();
        left.retain(|field| !part.contains(field));
        left
    }

    #[test]
    fn parts_of_a_proposal() {
        let table: [(&[u8], usize); 8] = [
            (&[101], 1),
            (&[106], 9),
            (&[108], 49),
            (&[109], 49),
            (&[106, 108, 109], 3),
            (&[22, 105, 107], 97),
            (&[], 97),
            (&BLANKS, 1),
        ];
        for (part, count) in table {
            let left = without(&BLANKS, part);
            is(&shown(part), &again(count, &left, "04"));
        }
        is("101", "ok ok 1 31752 6 04");
        is("nothing", "ok ok 97 31816 7 04");
        for field in FILLABLE {
            let count = match field {
                101 => 1,
                106 => 9,
                108 | 109 => 49,
                _ => 97,
            };
            let left = without(&FILLABLE, &[field]);
            is(&format!("{field} of ten"), &again(count, &left, "04"));
        }
        is("all of ten", &again(1, &[], "04"));
    }

    #[test]
    fn the_list_in_force() {
        for list in LISTS {
            let [s02, s32, s33] = list.map(u8::from);
            let name = format!("02, 32, 33 allowed: {s02} {s32} {s33}");
            let status = if list[0] { "02" } else { "04" };
            let rest = without(&BLANKS, &[101]);
            is(&format!("{name}, 101"), &again(1, &rest, status));
            // 01, and 03 where 02 is not allowed, are ahead.
            let ahead = if list[0] { 1 } else { 2 };
            let line = again(ahead + 1, &[101], status);
            is(&format!("{name}, all but 101"), &line);
        }
    }

    #[test]
    fn revisions_of_a_blank() {
        for revision in [1, 255, 65_535, u32::MAX - 1] {
            let name = format!("101 blanked with revision {revision}");
            is(&name, "ok ok 1 31752 6 04");
        }
    }

    #[test]
    fn every_cause_of_20() {
        is("bit 15", "20 0");
        for field in [14, 15, 17, 60, 61, 102, 103, 104] {
            is(&format!("{field} given"), &format!("20 {field}"));
        }
        for field in [14, 15, 17, 61, 103] {
            let name = format!("{field} without a list, blank");
            is(&name, &format!("20 {field}"));
        }
        for field in BLANKS {
            for what in ["of a hopeless order", "with the greatest revision"] {
                is(&format!("{field} {what}"), &format!("20 {field}"));
            }
        }
        is("bit 15 and the proposal", "20 0");
        is("60 and the proposal", "20 60");
        is("61 and 60", "20 60");
        is("every bit", "20 14");
        is("every bit but 14, 15 and 17", "20 60");
        is("the proposal, 101 with the greatest revision", "20 101");
        let left = again(3, &[101], "04");
        is("the proposal but 101 with the greatest revision", &left);
    }

    #[test]
    fn refused_completions() {
        is("nothing of a fresh draft", "ok 8 14 1");
        is("nothing of a hopeless order", "ok 10 1056");
        is("nothing of an ordinary order", "ok 9");
        is("nothing of an order at 20230924", "ok 12");
        is("bit 15 of a fresh draft", "20 0");
    }
}

//! Sheets to check.

use cases::{sheets, Sheet, Texts};

use crate::example::{Example, Kind};

/// All sheets: the table, other sizes, damaged ones.
pub fn all() -> Vec<Example> {
    [table(), sizes(), damaged()].concat()
}

fn check(name: impl Into<String>, sheet: &[u8]) -> Example {
    Example::new(Kind::Check, name, sheet)
}

/// The table `sheets.txt`.
fn table() -> Vec<Example> {
    sheets()
        .iter()
        .map(|case| check(case.name, &case.texts.sheet()))
        .collect()
}

/// Sheets of another size.
fn sizes() -> Vec<Example> {
    let size = |size| {
        let mut bytes = Texts::s().sheet().to_vec();
        bytes.resize(size, 0);
        check(format!("size {size}"), &bytes)
    };
    [0, 389, 391].map(size).to_vec()
}

/// Sheets with a length above 25, or a pad byte that is not zero.
fn damaged() -> Vec<Example> {
    let changed = |name: String, place: usize, byte: u8| {
        let mut sheet: Sheet = Texts::s().sheet();
        sheet[place] = byte;
        check(name, &sheet)
    };
    let mut examples = Vec::new();
    for length in [26, 255] {
        for slot in [0, 7, 14] {
            let name = format!("length {length} in slot {slot}");
            examples.push(changed(name, 26 * slot, length));
        }
    }
    // Field 14 has nine digits, field 102 too.
    for place in [10, 26 * 7 + 18, 389] {
        examples.push(changed(format!("pad at {place}"), place, b'0'));
    }
    examples
}

#[cfg(test)]
mod tests {
    use super::*;

    #[test]
    fn the_table_keeps_its_verdicts() {
        for (example, case) in table().iter().zip(sheets()) {
            let expected = case.verdict + "\n";
            assert_eq!(example.output(), expected.as_bytes(), "{}", case.name);
        }
    }

    #[test]
    fn bad_sizes_and_damaged_sheets_are_malformed() {
        let examples = [sizes(), damaged()].concat();
        assert_eq!(examples.len(), 12);
        for example in examples {
            assert_eq!(example.output(), b"1\n", "{}", example.name);
        }
    }
}

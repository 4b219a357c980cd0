//! Messages of version 1 to read, and of versions that are not known.

use cases::message;

use crate::example::{Example, Kind};

/// A text to take the beginning of, more than a message has room for.
pub const LONG: &[u8; 27] = b"ABCDEFGHIJKLMNOPQRSTUVWXYZA";

/// All messages: each part of one at its boundaries, then two parts wrong.
pub fn all() -> Vec<Example> {
    [
        sizes(),
        lengths(),
        versions(),
        fields(),
        revisions(),
        texts(),
        two_wrong(),
    ]
    .concat()
}

pub fn read(name: impl AsRef<str>, bytes: &[u8]) -> Example {
    Example::new(Kind::Message, format!("message: {}", name.as_ref()), bytes)
}

/// Messages of few bytes, with an L that is the rest where there is one.
fn sizes() -> Vec<Example> {
    let whole = message(14, 1, b"");
    let size = |size: usize| {
        let mut bytes = whole[..size].to_vec();
        if let [_, length, rest @ ..] = &mut bytes[..] {
            *length = rest.len() as u8;
        }
        read(format!("size {size}"), &bytes)
    };
    [0, 1, 2, 7, 8].map(size).to_vec()
}

/// The message with another L.
fn with_length(mut bytes: Vec<u8>, length: u16) -> Vec<u8> {
    bytes[..2].copy_from_slice(&length.to_be_bytes());
    bytes
}

fn lengths() -> Vec<Example> {
    let known = || message(14, 1, b"0045");
    let wrong = |name: &str, length| read(name, &with_length(known(), length));
    let mut examples = vec![
        wrong("L one less than the rest", 9),
        wrong("L as the rest", 10),
        wrong("L one more than the rest", 11),
        wrong("L 256 more than the rest", 266),
        read("L 5", &[0, 5, 1, 14, 0, 0, 0]),
    ];
    for length in [6, 31, 32, 33] {
        let bytes = message(104, 1, &LONG[..length - 6]);
        examples.push(read(format!("L {length}"), &bytes));
    }
    examples.push(read("L 262", &message(104, 1, &[b'1'; 256])));
    examples
}

/// The message with another version.
pub fn with_version(mut bytes: Vec<u8>, version: u8) -> Vec<u8> {
    bytes[2] = version;
    bytes
}

fn versions() -> Vec<Example> {
    let version = |version| {
        let bytes = with_version(message(101, 1, b"08"), version);
        read(format!("version {version}"), &bytes)
    };
    [0, 1, 3, 255].map(version).to_vec()
}

/// Every field number, listed or not.
fn fields() -> Vec<Example> {
    (0..=u8::MAX)
        .map(|field| read(format!("field {field}"), &message(field, 1, b"0")))
        .collect()
}

fn revisions() -> Vec<Example> {
    let revision = |revision| {
        let name = format!("revision {revision}");
        read(name, &message(102, revision, b"770301001"))
    };
    [0, 1, 256, 0x0102_0304, u32::MAX].map(revision).to_vec()
}

fn texts() -> Vec<Example> {
    let long = |size: usize| {
        let name = format!("text of {size} bytes");
        read(name, &message(108, 7, &LONG[..size]))
    };
    let mut examples = [0, 1, 25, 26].map(long).to_vec();
    // The letters of a basis, and bytes that no rule lets stand.
    examples.push(read("text of letters", &message(106, 2, b"\xD2\xC4")));
    examples.push(read("text of any bytes", &message(108, 2, b" \x00-\xFF")));
    examples
}

/// Two parts wrong at once, and all of them.
fn two_wrong() -> Vec<Example> {
    let cut = |bytes: Vec<u8>| bytes[..bytes.len() - 1].to_vec();
    let other_version = |bytes| with_version(bytes, 3);
    vec![
        read(
            "length and version",
            &cut(other_version(message(14, 1, b"0"))),
        ),
        read("length and field", &cut(message(16, 1, b"0"))),
        read("length and revision", &cut(message(14, 0, b"0"))),
        read("version and field", &other_version(message(16, 1, b"0"))),
        read("version and revision", &other_version(message(14, 0, b"0"))),
        read("field and revision", &message(16, 0, b"0")),
        read("all wrong", &cut(other_version(message(16, 0, b"0")))),
    ]
}

#[cfg(test)]
mod tests {
    use super::*;

    /// The line of the message with this name.
    fn line(name: &str) -> Vec<u8> {
        let name = format!("message: {name}");
        let mut examples = all().into_iter();
        let example = examples.find(|example| example.name == name);
        let mut output = example.expect("a message of this name").output();
        assert_eq!(output.pop(), Some(b'\n'));
        output
    }

    #[track_caller]
    fn lines(expected: &[(&str, &str)]) {
        for (name, expected) in expected {
            assert_eq!(line(name), expected.as_bytes(), "{name}");
        }
    }

    #[test]
    fn sizes_and_lengths() {
        lines(&[
            ("size 0", "2"),
            ("size 1", "2"),
            ("size 2", "2"),
            ("size 7", "2"),
            ("size 8", "ok 1 2 14 1 -"),
            ("L one less than the rest", "2"),
            ("L as the rest", "ok 1 2 14 1 0045"),
            ("L one more than the rest", "2"),
            ("L 256 more than the rest", "2"),
            ("L 5", "2"),
            ("L 6", "ok 1 2 104 1 -"),
            ("L 31", "ok 1 2 104 1 ABCDEFGHIJKLMNOPQRSTUVWXY"),
            ("L 32", "2"),
            ("L 33", "2"),
            ("L 262", "2"),
        ]);
    }

    #[test]
    fn versions_and_revisions() {
        lines(&[
            ("version 0", "3"),
            ("version 1", "ok 1 2 101 1 08"),
            ("version 3", "3"),
            ("version 255", "3"),
            ("revision 0", "5"),
            ("revision 1", "ok 1 2 102 1 770301001"),
            ("revision 256", "ok 1 2 102 256 770301001"),
            ("revision 16909060", "ok 1 2 102 16909060 770301001"),
            ("revision 4294967295", "ok 1 2 102 4294967295 770301001"),
        ]);
    }

    #[test]
    fn listed_fields_alone_are_read() {
        let listed = [
            "14", "15", "17", "22", "60", "61", "101", "102", "103", "104", "105", "106", "107",
            "108", "109",
        ];
        for field in 0..=255 {
            let number = field.to_string();
            let expected = match listed.contains(&number.as_str()) {
                true => format!("ok 1 2 {number} 1 0"),
                false => "4".into(),
            };
            lines(&[(&format!("field {number}"), &expected)]);
        }
    }

    #[test]
    fn texts_as_they_are() {
        lines(&[
            ("text of 0 bytes", "ok 1 2 108 7 -"),
            ("text of 1 bytes", "ok 1 2 108 7 A"),
            ("text of 25 bytes", "ok 1 2 108 7 ABCDEFGHIJKLMNOPQRSTUVWXY"),
            ("text of 26 bytes", "2"),
        ]);
        assert_eq!(line("text of letters"), b"ok 1 2 106 2 \xD2\xC4");
        assert_eq!(line("text of any bytes"), b"ok 1 2 108 2  \x00-\xFF");
    }

    #[test]
    fn of_two_wrong_parts_the_lower_number_is_told() {
        lines(&[
            ("length and version", "2"),
            ("length and field", "2"),
            ("length and revision", "2"),
            ("version and field", "3"),
            ("version and revision", "3"),
            ("field and revision", "4"),
            ("all wrong", "2"),
        ]);
    }
}

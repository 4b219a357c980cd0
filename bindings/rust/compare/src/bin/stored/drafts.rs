//! Drafts made fresh, posted to, copied and tested ahead, and messages written.

use cases::{message, message_2, set_slot, Texts};
use cases::{ADVISER, CLIENT, DRAFT_SIZE, FIELDS, HEAD_SIZE_1, HEAD_SIZE_2};
use compare::{Library, Reference};
use kieselbrot::{Message, Party, Posted, Refusal, Version};

use crate::dates::{found, hopeless};
use crate::example::{sheet_shown, shown, Example, Kind};

/// All: each answer of each of the five, and the bounds of what they take.
pub fn all() -> Vec<Example> {
    [fresh(), posts(), copies(), writes(), pretests()].concat()
}

/// The refusal, and whether the lent buffer is as it was.
fn refused(refusal: Refusal, buffer: &[u8], before: &[u8]) -> Vec<u8> {
    let kept = if buffer == before { "kept" } else { "changed" };
    format!("{} {kept}", refusal.numbers()).into_bytes()
}

/// The revision, party and text of each slot of a draft, a space before each.
fn draft_shown(draft: &[u8]) -> Vec<u8> {
    let mut slots = Vec::new();
    for slot in draft.chunks_exact(31) {
        let revision = u32::from_be_bytes([slot[0], slot[1], slot[2], slot[3]]);
        slots.extend(format!(" {revision} {} ", slot[4]).as_bytes());
        slots.extend(shown(&slot[6..][..usize::from(slot[5])]));
    }
    slots
}

/// `ok` and the draft that the buffer is made, or the refusal.
pub fn fresh_made(before: &[u8]) -> Vec<u8> {
    let mut buffer = before.to_vec();
    match Reference.fresh(&mut buffer) {
        Ok(()) => [&b"ok"[..], &draft_shown(&buffer)].concat(),
        Err(refusal) => refused(refusal, &buffer, before),
    }
}

/// What stands behind a size in two bytes: so many bytes, and the rest.
fn sized(bytes: &[u8]) -> (&[u8], &[u8]) {
    let size = usize::from(u16::from_be_bytes([bytes[0], bytes[1]]));
    bytes[2..].split_at(size)
}

fn with_size(first: &[u8], second: &[u8]) -> Vec<u8> {
    let size = u16::try_from(first.len()).expect("at most 65,535 bytes");
    [&size.to_be_bytes()[..], first, second].concat()
}

/// How the message stands and the draft afterwards, or the refusal.
pub fn posted(bytes: &[u8]) -> Vec<u8> {
    let (before, message) = sized(bytes);
    let mut draft = before.to_vec();
    let standing = match Reference.post(&mut draft, message) {
        Ok(Posted::Newer) => "newer",
        Ok(Posted::Same) => "same",
        Ok(Posted::Older) => "older",
        Err(refusal) => return refused(refusal, &draft, before),
    };
    [standing.as_bytes(), &draft_shown(&draft)].concat()
}

/// `ok` and the fifteen texts of the sheet, or the refusal.
pub fn copied(bytes: &[u8]) -> Vec<u8> {
    let (draft, before) = sized(bytes);
    let mut sheet = before.to_vec();
    match Reference.copy(draft, &mut sheet) {
        Ok(()) => [&b"ok"[..], &sheet_shown(&sheet)].concat(),
        Err(refusal) => refused(refusal, &sheet, before),
    }
}

/// `ok LENGTH`, the bytes of the message's head as numbers, the text, and the byte behind the
/// message, 0 where the buffer ends; or the refusal. The buffer has 8, 33, 34 or 40 bytes.
pub fn written(bytes: &[u8]) -> Vec<u8> {
    let &[version, party, field, a, b, c, d, size, ref text @ ..] = bytes else {
        panic!("eight bytes before the text");
    };
    let message = Message {
        version: Version(version),
        party: Party(party),
        field,
        revision: u32::from_be_bytes([a, b, c, d]),
        text,
    };
    let before = match size {
        8 | 33 | 34 => vec![255; usize::from(size)],
        _ => vec![255; 40],
    };
    let mut buffer = before.clone();
    match Reference.write(&message, &mut buffer) {
        Ok(length) => {
            let head = if version == 2 {
                HEAD_SIZE_2
            } else {
                HEAD_SIZE_1
            };
            let mut line = format!("ok {length}").into_bytes();
            for byte in &buffer[..head] {
                line.extend(format!(" {byte}").as_bytes());
            }
            line.push(b' ');
            line.extend(shown(&buffer[head..length]));
            let behind = buffer.get(length).unwrap_or(&0);
            line.extend(format!(" {behind}").as_bytes());
            line
        }
        Err(refusal) => refused(refusal, &buffer, &before),
    }
}

/// `ok FIELD RULE`, `ok none`, or the refusal.
pub fn pretested(draft: &[u8]) -> Vec<u8> {
    match Reference.pretest(draft) {
        Ok(Some(broken)) => format!("ok {} {}", broken.field, broken.rule).into_bytes(),
        Ok(None) => b"ok none".to_vec(),
        Err(refusal) => refusal.numbers().to_string().into_bytes(),
    }
}

/// Buffers of the right size, whatever they hold, and a shorter one.
fn fresh() -> Vec<Example> {
    let example =
        |name: &str, before: &[u8]| Example::new(Kind::Fresh, format!("fresh: {name}"), before);
    vec![
        example("of zeros", &[0; DRAFT_SIZE]),
        example("of 255", &[255; DRAFT_SIZE]),
        example("of S", &given(&Texts::s())),
        example("a byte short", &[255; DRAFT_SIZE - 1]),
    ]
}

/// A draft of these texts, those that are not blank with revision 5, of the adviser.
fn given(texts: &Texts) -> Vec<u8> {
    let revision = |text: cases::Text| if text.is_empty() { 0 } else { 5 };
    texts.draft(revision).to_vec()
}

fn post(name: &str, draft: &[u8], message: &[u8]) -> Example {
    Example::new(
        Kind::Post,
        format!("post: {name}"),
        &with_size(draft, message),
    )
}

/// Every standing, by revision and party; each refusal, and what is tested first.
fn posts() -> Vec<Example> {
    let adviser = given(&Texts::s());
    let mut client = adviser.clone();
    set_slot(&mut client, 101, 5, CLIENT, b"01");
    let empty = [0; DRAFT_SIZE];
    let mut examples = vec![
        post("the first", &empty, &message(14, 1, b"004525987")),
        post(
            "the first in the last slot",
            &empty,
            &message(109, u32::MAX, b"0"),
        ),
        post(
            "the client's first",
            &empty,
            &message_2(CLIENT, 101, 1, b"08"),
        ),
        post("a blank", &adviser, &message(101, 6, b"")),
        post("25 bytes", &adviser, &message(22, 6, &[b'1'; 25])),
        post("a clash", &adviser, &message(101, 5, b"08")),
        post(
            "a clash of the client's",
            &client,
            &message_2(CLIENT, 101, 5, b"08"),
        ),
    ];
    for revision in [4, 5, 6] {
        for party in [CLIENT, ADVISER] {
            for (whose, draft) in [("the adviser's", &adviser), ("the client's", &client)] {
                let name = format!("revision {revision} of {party} to 5 of {whose}");
                examples.push(post(&name, draft, &message_2(party, 101, revision, b"01")));
            }
        }
    }
    let right = message(101, 6, b"08");
    let changed = |place: usize, byte| {
        let mut bytes = right.clone();
        bytes[place] = byte;
        bytes
    };
    let mut malformed = adviser.clone();
    malformed[DRAFT_SIZE - 1] = 1;
    examples.extend([
        post("no message", &adviser, &[]),
        post("a byte behind", &adviser, &[&right[..], b"8"].concat()),
        post("version 3", &adviser, &changed(2, 3)),
        post("party 3", &adviser, &message_2(3, 101, 6, b"08")),
        post("field 18", &adviser, &changed(3, 18)),
        post("revision 0", &adviser, &message(101, 0, b"08")),
        post("a malformed draft", &malformed, &right),
        post("a malformed draft and no message", &malformed, &[]),
        post("a draft a byte short", &adviser[..DRAFT_SIZE - 1], &right),
    ]);
    examples
}

fn copy(name: &str, draft: &[u8], sheet: &[u8]) -> Example {
    Example::new(
        Kind::Copy,
        format!("copy: {name}"),
        &with_size(draft, sheet),
    )
}

/// Drafts of both parties and a fresh one; malformed drafts, and sheets of another size.
fn copies() -> Vec<Example> {
    let s = given(&Texts::s());
    let mut both = s.clone();
    set_slot(&mut both, 101, 7, CLIENT, b"08");
    set_slot(&mut both, 109, 1, CLIENT, b"");
    let mut malformed = s.clone();
    malformed[4] = 0;
    let sheet = [255; 390];
    vec![
        copy("S", &s, &sheet),
        copy("of both parties", &both, &sheet),
        copy("a fresh draft", &[0; DRAFT_SIZE], &sheet),
        copy("a revision without a party", &malformed, &sheet),
        copy(
            "a malformed draft to a sheet a byte short",
            &malformed,
            &sheet[..389],
        ),
        copy("a draft a byte short", &s[..DRAFT_SIZE - 1], &sheet),
        copy("to a sheet a byte short", &s, &sheet[..389]),
    ]
}

/// A message, and the size of the buffer.
fn write(
    name: &str,
    [version, party, field, size]: [u8; 4],
    revision: u32,
    text: &[u8],
) -> Example {
    let [a, b, c, d] = revision.to_be_bytes();
    let head = [version, party, field, a, b, c, d, size];
    Example::new(
        Kind::Write,
        format!("write: {name}"),
        &[&head, text].concat(),
    )
}

/// Every field, both versions and parties, the bounds of text, revision and buffer, and each
/// refusal.
fn writes() -> Vec<Example> {
    let mut examples: Vec<Example> = FIELDS
        .into_iter()
        .map(|field| write(&format!("field {field}"), [1, ADVISER, field, 40], 1, b"0"))
        .collect();
    let long = [b'1'; 25];
    examples.extend([
        write("the client's", [2, CLIENT, 101, 40], 258, b"08"),
        write(
            "the adviser's in version 2",
            [2, ADVISER, 101, 40],
            u32::MAX,
            b"08",
        ),
        write("a blank", [1, ADVISER, 101, 8], 1, b""),
        write("a blank of the client's", [2, CLIENT, 101, 40], 1, b""),
        write(
            "a blank of the client's, a buffer a byte short",
            [2, CLIENT, 101, 8],
            1,
            b"",
        ),
        write("25 bytes, an exact buffer", [1, ADVISER, 22, 33], 1, &long),
        write(
            "25 bytes in version 2, an exact buffer",
            [2, CLIENT, 22, 34],
            1,
            &long,
        ),
        write(
            "25 bytes in version 2, a buffer a byte short",
            [2, CLIENT, 22, 33],
            1,
            &long,
        ),
        write("a buffer of 8", [1, ADVISER, 101, 8], 1, b"08"),
        write("26 bytes", [1, ADVISER, 22, 40], 1, &[b'1'; 26]),
        write("version 0", [0, ADVISER, 101, 40], 1, b"08"),
        write("version 3", [3, ADVISER, 101, 40], 1, b"08"),
        write("the client's in version 1", [1, CLIENT, 101, 40], 1, b"08"),
        write("party 0", [2, 0, 101, 40], 1, b"08"),
        write("party 3", [2, 3, 101, 40], 1, b"08"),
        write("field 18", [1, ADVISER, 18, 40], 1, b"08"),
        write("revision 0", [1, ADVISER, 101, 40], 0, b"08"),
        write("26 bytes and all else wrong", [3, 3, 18, 8], 0, &[b'1'; 26]),
        write("all but the text wrong", [3, 3, 18, 8], 0, b"08"),
        write(
            "party, field, revision and buffer wrong",
            [2, 3, 18, 8],
            0,
            b"08",
        ),
        write(
            "field, revision and buffer wrong",
            [1, ADVISER, 18, 8],
            0,
            b"08",
        ),
        write("revision and buffer wrong", [1, ADVISER, 101, 8], 0, b"08"),
    ]);
    examples
}

fn pretest(name: &str, draft: &[u8]) -> Example {
    Example::new(Kind::Pretest, format!("pretest: {name}"), draft)
}

/// Each of the twelve rules, none of them, and each refusal.
fn pretests() -> Vec<Example> {
    let mut examples = vec![
        pretest("S", &given(&Texts::s())),
        pretest("found", &given(&found())),
        pretest("hopeless", &given(&hopeless())),
        pretest("a fresh draft", &[0; DRAFT_SIZE]),
        pretest("ordinary", &given(&Texts::s().without(&[15, 101]))),
        pretest("a byte short", &given(&Texts::s())[..DRAFT_SIZE - 1]),
        pretest("no bytes", &[]),
    ];
    let changes: [(u8, &[u8]); 17] = [
        (14, b"00452598"),
        (15, b"1"),
        (17, b"0310064300000001480"),
        (17, b"03100644000000014800"),
        (22, b"00"),
        (60, b"1"),
        (61, b"6730054025"),
        (61, b""),
        (101, b"99"),
        (102, b"1"),
        (103, b""),
        (103, b"002801001"),
        (104, b"0"),
        (104, b"1"),
        (105, b"00000000"),
        (107, b"1"),
        (108, b""),
    ];
    for (field, text) in changes {
        let name = format!("{field} {}", String::from_utf8_lossy(shown(text)));
        examples.push(pretest(&name, &given(&Texts::s().with(field, text))));
    }
    examples
}

#[cfg(test)]
mod tests {
    use super::*;
    use crate::example::has_line;

    #[track_caller]
    fn is(name: &str, line: &str) {
        has_line(&all(), name, line);
    }

    #[track_caller]
    fn begins(name: &str, line: &str) {
        let examples = all();
        let example = examples.iter().find(|example| example.name == name);
        let output = example.expect(name).output();
        assert!(output.starts_with(line.as_bytes()), "{name}");
    }

    #[test]
    fn a_fresh_draft_is_all_zero() {
        let line = format!("ok{}", " 0 0 -".repeat(15));
        for name in ["of zeros", "of 255", "of S"] {
            is(&format!("fresh: {name}"), &line);
        }
        is("fresh: a byte short", "1 kept");
    }

    #[test]
    fn standings() {
        is(
            "post: the first",
            &format!("newer 1 2 004525987{}", " 0 0 -".repeat(14)),
        );
        for (revision, party, whose, standing) in [
            (4, CLIENT, "the adviser's", "older"),
            (4, ADVISER, "the client's", "older"),
            (5, CLIENT, "the adviser's", "older"),
            (5, CLIENT, "the client's", "same"),
            (5, ADVISER, "the adviser's", "same"),
            (5, ADVISER, "the client's", "newer"),
            (6, CLIENT, "the adviser's", "newer"),
            (6, ADVISER, "the client's", "newer"),
        ] {
            let name = format!("post: revision {revision} of {party} to 5 of {whose}");
            begins(&name, &format!("{standing} 5 2 004525987 "));
        }
        for (name, line) in [
            ("a clash", "6 kept"),
            ("a clash of the client's", "6 kept"),
            ("no message", "2 kept"),
            ("a byte behind", "2 kept"),
            ("version 3", "3 kept"),
            ("party 3", "13 kept"),
            ("field 18", "4 kept"),
            ("revision 0", "5 kept"),
            ("a malformed draft", "1 kept"),
            ("a malformed draft and no message", "1 kept"),
            ("a draft a byte short", "1 kept"),
        ] {
            is(&format!("post: {name}"), line);
        }
    }

    #[test]
    fn copies_drop_revisions_and_parties() {
        begins("copy: S", "ok 004525987 40102810845370000004 ");
        is("copy: a fresh draft", &format!("ok{}", " -".repeat(15)));
        for (name, line) in [
            ("a revision without a party", "1 kept"),
            ("a malformed draft to a sheet a byte short", "1 kept"),
            ("a draft a byte short", "1 kept"),
            ("to a sheet a byte short", "7 kept"),
        ] {
            is(&format!("copy: {name}"), line);
        }
    }

    #[test]
    fn written_messages() {
        is("write: field 14", "ok 9 0 7 1 14 0 0 0 1 0 255");
        is("write: the client's", "ok 11 0 9 2 1 101 0 0 1 2 08 255");
        is("write: a blank", "ok 8 0 6 1 101 0 0 0 1 - 0");
        for (name, line) in [
            ("a blank of the client's, a buffer a byte short", "7 kept"),
            ("25 bytes in version 2, a buffer a byte short", "7 kept"),
            ("a buffer of 8", "7 kept"),
            ("26 bytes", "2 kept"),
            ("version 0", "3 kept"),
            ("version 3", "3 kept"),
            ("the client's in version 1", "13 kept"),
            ("party 0", "13 kept"),
            ("party 3", "13 kept"),
            ("field 18", "4 kept"),
            ("revision 0", "5 kept"),
            ("26 bytes and all else wrong", "2 kept"),
            ("all but the text wrong", "3 kept"),
            ("party, field, revision and buffer wrong", "13 kept"),
            ("field, revision and buffer wrong", "4 kept"),
            ("revision and buffer wrong", "5 kept"),
        ] {
            is(&format!("write: {name}"), line);
        }
    }

    #[test]
    fn tests_ahead() {
        for (name, line) in [
            ("S", "ok none"),
            ("found", "ok none"),
            ("a fresh draft", "8 14 1"),
            ("ordinary", "9"),
            ("a byte short", "1"),
            ("no bytes", "1"),
            ("14 00452598", "8 14 1"),
            ("15 1", "8 15 2"),
            ("17 03100644000000014800", "ok 17 5"),
            ("22 00", "ok 22 7"),
            ("103 -", "ok 103 6"),
            ("104 0", "ok 104 28"),
            ("107 1", "ok 107 16"),
        ] {
            is(&format!("pretest: {name}"), line);
        }
    }
}

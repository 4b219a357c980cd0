//! "The client writes into the same draft."

use cases::{slot_of, Random, Text, FIELDS};
use reference::{complete, copy, fresh, post, pretest, quick, read, report, take_up, write};
use reference::{Message, Posted, Record, Refusal, DRAFT_SIZE, MESSAGE_MAX, SLOT_SIZE};

use crate::fixture::{open, s, Order, ORDER_DATE};
use crate::layout::{draft_after, draft_of, message_1, message_2, slot, Draft, Reading};
use crate::layout::{ADVISER, CLIENT, HEAD_1, HEAD_2, LENGTH_PLACE, PARTY_PLACE};

const FRESH: Draft = [0; DRAFT_SIZE];

/// The versions with the parties that can write them.
const WRITERS: [(u8, u8); 3] = [(1, ADVISER), (2, CLIENT), (2, ADVISER)];

/// The bytes of hexadecimal digits.
fn hex(digits: &str) -> Vec<u8> {
    let pairs = digits.as_bytes().chunks(2);
    let byte = |pair| u8::from_str_radix(std::str::from_utf8(pair).unwrap(), 16).unwrap();
    pairs.map(byte).collect()
}

/// A message laid out by hand.
fn laid_out((version, party, field, revision, text): Reading<'_>) -> Vec<u8> {
    match version {
        1 => message_1(field, revision, text),
        _ => message_2(party, field, revision, text),
    }
}

fn reading(message: Message<'_>) -> Reading<'_> {
    let Message {
        version,
        party,
        field,
        revision,
        text,
    } = message;
    (version, party, field, revision, text)
}

/// The bytes of a field's slot.
fn slot_in(draft: &Draft, field: u8) -> &[u8] {
    &draft[SLOT_SIZE * slot_of(field)..][..SLOT_SIZE]
}

/// "So it has 31 bytes and a draft 465".
#[test]
fn sizes() {
    assert_eq!((SLOT_SIZE, DRAFT_SIZE), (31, 465));
    assert_eq!(MESSAGE_MAX, 2 + 32);
    assert_eq!((PARTY_PLACE, LENGTH_PLACE), (4, 5));
    for size in 0..=2 * DRAFT_SIZE {
        let mut bytes = vec![0xEE; size];
        let expected = match size == DRAFT_SIZE {
            true => (Ok(()), vec![0; size]),
            false => (Err(Refusal::Malformed), vec![0xEE; size]),
        };
        assert_eq!((fresh(&mut bytes), bytes), expected, "size {size}");
        let answer = copy(&vec![0; size], &mut [0; 390]);
        assert_eq!(answer.is_ok(), size == DRAFT_SIZE, "size {size}");
    }
}

#[test]
fn refusal_13() {
    assert_eq!(Refusal::Party.number(), 13);
    assert_eq!(Refusal::Party.to_string(), "13");
}

#[test]
fn readings() {
    let seven = |count: usize| "37".repeat(count);
    let rows = [
        ("0006010E00000001".into(), Ok((1, ADVISER, 14, 1, ""))),
        ("000702010E00000001".into(), Ok((2, CLIENT, 14, 1, ""))),
        ("000702020E00000001".into(), Ok((2, ADVISER, 14, 1, ""))),
        ("000602010E000000".into(), Err(2)),
        ("0006020E00000001".into(), Err(2)),
        ("0006030E00000001".into(), Err(3)),
        ("002003".to_owned() + &seven(31), Err(3)),
        ("0020010E00000001".to_owned() + &seven(26), Err(2)),
        (
            "002002010E00000001".to_owned() + &seven(25),
            Ok((2, CLIENT, 14, 1, "7777777777777777777777777")),
        ),
        ("002102010E00000001".to_owned() + &seven(26), Err(2)),
        ("000702000E00000001".into(), Err(13)),
        ("000702030E00000001".into(), Err(13)),
        ("000702010D00000000".into(), Err(4)),
        ("000702010E00000000".into(), Err(5)),
    ];
    for (digits, expected) in rows {
        let bytes = hex(&digits);
        let answer = read(&bytes)
            .map(reading)
            .map_err(|refusal| refusal.number());
        let expected = expected.map(
            |(version, party, field, revision, text): (_, _, _, _, &str)| {
                (version, party, field, revision, text.as_bytes())
            },
        );
        assert_eq!(answer, expected, "{digits}");
    }
}

/// "In 2, L outside 6 to 31 becomes 6 to 32, and 2 is also, tested after 3, an L its
/// version doesn't allow".
#[test]
fn lengths_by_version() {
    for version in 0..=255 {
        for length in 1..=300_u16 {
            let mut bytes = length.to_be_bytes().to_vec();
            bytes.extend([version, 1]);
            bytes.resize(2 + usize::from(length), 14);
            let expected = match (version, length) {
                _ if !(6..=32).contains(&length) => Some(2),
                (1, 32) | (2, 6) => Some(2),
                // The party's byte is in the field's place.
                (1, _) => Some(4),
                (2, _) => None,
                _ => Some(3),
            };
            let answer = read(&bytes).err().map(|refusal| refusal.number());
            assert_eq!(answer, expected, "version {version}, L {length}");
        }
    }
}

/// 2, 3, 2, 13, 4, 5: everything wrong, then mended one by one.
#[test]
fn reading_refuses_in_order() {
    let mut bytes = vec![0; 2 + 6];
    let mut mended = |place: usize, byte: u8, number: u8| {
        bytes[place] = byte;
        let answer = read(&bytes).map_err(|refusal| refusal.number());
        assert_eq!(answer, Err(number), "place {place}");
    };
    mended(1, 7, 2);
    mended(1, 6, 3);
    mended(2, 2, 2);
    let mut bytes = message_2(0, 0, 0, b"");
    for (place, byte, number) in [(2, 3, 3), (2, 2, 13), (3, CLIENT, 4), (4, 14, 5)] {
        bytes[place] = byte;
        let answer = read(&bytes).map_err(|refusal| refusal.number());
        assert_eq!(answer, Err(number), "place {place}");
    }
    bytes[HEAD_2 - 1] = 1;
    assert_eq!(read(&bytes).map(reading), Ok((2, CLIENT, 14, 1, &b""[..])));
}

/// All party bytes, in reading and in posting.
#[test]
fn all_party_bytes() {
    for party in 0..=255 {
        let bytes = message_2(party, 60, 1, b"x");
        let mut draft = FRESH;
        match party {
            CLIENT | ADVISER => {
                assert_eq!(read(&bytes).map(reading), Ok((2, party, 60, 1, &b"x"[..])));
                assert_eq!(post(&mut draft, &bytes), Ok(Posted::Newer));
                assert_eq!(slot_in(&draft, 60), slot(1, party, Text::new(b"x")));
            }
            _ => {
                assert_eq!(read(&bytes), Err(Refusal::Party));
                assert_eq!(post(&mut draft, &bytes), Err(Refusal::Party));
                assert_eq!(draft, FRESH);
            }
        }
    }
}

/// "As a part of the caller's message".
#[test]
fn the_text_is_a_part_of_the_message() {
    let bytes = message_2(CLIENT, 108, 1, b"number 5");
    let text = read(&bytes).map(|message| message.text.as_ptr_range());
    assert_eq!(text, Ok(bytes[HEAD_2..].as_ptr_range()));
}

/// Reading in plain words: the number of the refusal, or the reading.
fn read_plainly(bytes: &[u8]) -> Result<Reading<'_>, u8> {
    if bytes.len() < 2 {
        return Err(2);
    }
    let length = usize::from(bytes[0]) * 256 + usize::from(bytes[1]);
    if length != bytes.len() - 2 || !(6..=32).contains(&length) {
        return Err(2);
    }
    let version = bytes[2];
    if version != 1 && version != 2 {
        return Err(3);
    }
    if version == 1 && length == 32 || version == 2 && length == 6 {
        return Err(2);
    }
    let (party, start) = match version {
        1 => (ADVISER, 3),
        _ => (bytes[3], 4),
    };
    if party != CLIENT && party != ADVISER {
        return Err(13);
    }
    let field = bytes[start];
    if !FIELDS.contains(&field) {
        return Err(4);
    }
    let revision = bytes[start + 1..start + 5]
        .iter()
        .fold(0, |revision, &byte| revision * 256 + u32::from(byte));
    if revision == 0 {
        return Err(5);
    }
    Ok((version, party, field, revision, &bytes[start + 5..]))
}

/// Some bytes, often none.
fn some_text(random: &mut Random) -> Vec<u8> {
    let length = random.pick(&[0, 1, 2, 24, 25]);
    (0..length).map(|_| random.byte()).collect()
}

/// Near messages of every version, readable or not.
#[test]
fn some_readings() {
    let random = &mut Random::new(8);
    let mut times = [0; 14];
    for _ in 0..100_000 {
        let (version, party) = random.pick(&WRITERS);
        let (field, revision) = (random.pick(&FIELDS), random.pick(&[0, 1, 256, u32::MAX]));
        let text = some_text(random);
        let mut bytes = laid_out((version, party, field, revision, &text));
        for _ in 0..random.below(4) {
            let place = random.below(bytes.len().min(HEAD_2));
            bytes[place] = random.pick(&[0, 1, 2, 3, 6, 7, 31, 32, field, party]);
        }
        if random.percent(20) {
            let size = random.below(MESSAGE_MAX + 3);
            bytes.resize(size, 0);
        }
        if random.percent(30) && bytes.len() >= 2 {
            bytes[1] = (bytes.len() - 2) as u8;
        }
        let answer = read(&bytes)
            .map(reading)
            .map_err(|refusal| refusal.number());
        assert_eq!(answer, read_plainly(&bytes), "{bytes:?}");
        times[answer.map_or_else(usize::from, |_| 0)] += 1;
    }
    for number in [0, 2, 3, 4, 5, 13] {
        assert!(times[number] > 500, "{number}: {times:?}");
    }
}

/// "Messages and their readings still match one to one": what is written reads as
/// what was given, and what reads is what is written of it.
#[test]
fn round_trips() {
    for (version, party) in WRITERS {
        for field in FIELDS {
            for revision in [1, 2, 0x0102_0304, u32::MAX] {
                for length in 0..=25 {
                    let text = vec![field; length];
                    let given = (version, party, field, revision, &text[..]);
                    let bytes = laid_out(given);
                    assert_eq!(read(&bytes).map(reading), Ok(given));
                    let mut buffer = [0xEE; MESSAGE_MAX + 1];
                    let size = write(version, party, field, revision, &text, &mut buffer);
                    assert_eq!(size, Ok(bytes.len()));
                    assert_eq!(buffer[..bytes.len()], bytes);
                    assert!(buffer[bytes.len()..].iter().all(|&byte| byte == 0xEE));
                }
            }
        }
    }
    let random = &mut Random::new(80);
    let mut times = 0;
    for _ in 0..50_000 {
        let size = HEAD_1 + random.below(MESSAGE_MAX - HEAD_1 + 1);
        let mut bytes: Vec<u8> = (0..size).map(|_| random.byte()).collect();
        let version = random.pick(&[1, 2]);
        bytes[..3].copy_from_slice(&[0, (size - 2) as u8, version]);
        bytes[3] = random.pick(&[CLIENT, ADVISER, 14, 109]);
        bytes[4] = random.pick(&FIELDS);
        let Ok(message) = read(&bytes) else {
            continue;
        };
        let mut buffer = vec![0; size];
        let (version, party, field, revision, text) = reading(message);
        let written = write(version, party, field, revision, text, &mut buffer);
        assert_eq!((written, buffer), (Ok(size), bytes.clone()));
        times += 1;
    }
    assert!(times > 10_000, "{times}");
}

/// 2, 3, 13, 4, 5, 7, and no byte is written.
#[test]
fn writing_refuses_in_order() {
    let long = [b'7'; 26];
    type Arguments<'a> = (u8, u8, u8, u32, &'a [u8], u8);
    let rows: [Arguments<'_>; 10] = [
        (0, 0, 0, 0, &long, 2),
        (0, 0, 0, 0, b"", 3),
        (3, CLIENT, 14, 1, b"", 3),
        (1, 0, 0, 0, b"", 13),
        (1, CLIENT, 0, 0, b"", 13),
        (2, 0, 0, 0, b"", 13),
        (2, 3, 14, 1, b"", 13),
        (2, CLIENT, 0, 0, b"", 4),
        (2, CLIENT, 14, 0, b"", 5),
        (2, CLIENT, 14, 1, b"", 7),
    ];
    for (version, party, field, revision, text, number) in rows {
        let mut buffer = [0xEE; HEAD_2 - 1];
        let written = write(version, party, field, revision, text, &mut buffer);
        assert_eq!(written.map_err(|refusal| refusal.number()), Err(number));
        assert_eq!(buffer, [0xEE; HEAD_2 - 1]);
    }
}

/// "3 a version other than 1 or 2; 13 an unknown party, or the client when writing
/// version 1".
#[test]
fn all_versions_and_parties_in_writing() {
    for version in 0..=255 {
        for party in 0..=255 {
            let mut buffer = [0; HEAD_2];
            let written = write(version, party, 108, 1, b"", &mut buffer);
            let expected = match (version, party) {
                (1, ADVISER) => Ok(HEAD_1),
                (2, CLIENT | ADVISER) => Ok(HEAD_2),
                (1 | 2, _) => Err(Refusal::Party),
                _ => Err(Refusal::Version),
            };
            assert_eq!(written, expected, "version {version}, party {party}");
        }
    }
}

/// Postings to field 60 in version 2, their answers and what they end in.
#[test]
fn postings() {
    const NEWER: &str = "newer";
    type Row<'a> = (&'a [(u8, u32, &'a str, &'a str)], (u32, u8, &'a str));
    let (a, c) = (ADVISER, CLIENT);
    let rows: [Row<'_>; 16] = [
        (&[(c, 5, "x", NEWER), (a, 5, "y", NEWER)], (5, a, "y")),
        (&[(a, 5, "y", NEWER), (c, 5, "x", "older")], (5, a, "y")),
        (&[(c, 5, "x", NEWER), (a, 5, "x", NEWER)], (5, a, "x")),
        (&[(a, 5, "x", NEWER), (c, 5, "x", "older")], (5, a, "x")),
        (&[(a, 5, "x", NEWER), (a, 5, "x", "same")], (5, a, "x")),
        (&[(c, 5, "x", NEWER), (c, 5, "x", "same")], (5, c, "x")),
        (&[(a, 5, "x", NEWER), (a, 5, "y", "6")], (5, a, "x")),
        (&[(c, 5, "x", NEWER), (c, 5, "y", "6")], (5, c, "x")),
        (&[(a, 4, "x", NEWER), (c, 5, "y", NEWER)], (5, c, "y")),
        (&[(c, 5, "y", NEWER), (a, 4, "x", "older")], (5, c, "y")),
        (&[(c, 4, "x", NEWER), (a, 5, "y", NEWER)], (5, a, "y")),
        (&[(a, 5, "y", NEWER), (c, 4, "x", "older")], (5, a, "y")),
        // A blank stands over a text like any other.
        (&[(c, 5, "x", NEWER), (a, 5, "", NEWER)], (5, a, "")),
        (&[(a, 5, "", NEWER), (c, 5, "x", "older")], (5, a, "")),
        (
            &[(c, u32::MAX, "x", NEWER), (a, u32::MAX, "y", NEWER)],
            (u32::MAX, a, "y"),
        ),
        (
            &[
                (c, 5, "x", NEWER),
                (a, 5, "y", NEWER),
                (c, 5, "x", "older"),
                (a, 5, "x", "6"),
                (c, 6, "x", NEWER),
            ],
            (6, c, "x"),
        ),
    ];
    for (list, (revision, party, text)) in rows {
        let mut draft = FRESH;
        for &(party, revision, text, expected) in list {
            let message = message_2(party, 60, revision, text.as_bytes());
            assert_eq!(word(post(&mut draft, &message)), expected, "{list:?}");
        }
        let mut expected = FRESH;
        expected[SLOT_SIZE * slot_of(60)..][..SLOT_SIZE].copy_from_slice(&slot(
            revision,
            party,
            Text::new(text.as_bytes()),
        ));
        assert_eq!(draft, expected, "{list:?}");
    }
}

/// What the program says of a posting.
fn word(posted: Result<Posted, Refusal>) -> String {
    match posted {
        Ok(Posted::Newer) => "newer".into(),
        Ok(Posted::Same) => "same".into(),
        Ok(Posted::Older) => "older".into(),
        Err(refusal) => refusal.number().to_string(),
    }
}

/// "Version 1 counts as the adviser": the adviser's messages of both versions are the
/// same to a draft.
#[test]
fn the_version_plays_no_part() {
    let one = |text: &[u8]| message_1(60, 5, text);
    let two = |text: &[u8]| message_2(ADVISER, 60, 5, text);
    for (first, second, other) in [
        (one(b"x"), two(b"x"), two(b"y")),
        (two(b"x"), one(b"x"), one(b"y")),
    ] {
        let mut draft = FRESH;
        assert_eq!(post(&mut draft, &first), Ok(Posted::Newer));
        let stored = draft;
        assert_eq!(slot_in(&draft, 60), slot(5, ADVISER, Text::new(b"x")));
        assert_eq!(post(&mut draft, &second), Ok(Posted::Same));
        assert_eq!(post(&mut draft, &other), Err(Refusal::Clash));
        assert_eq!(draft, stored);
    }
    // Version 1 stands over the client's.
    let mut draft = FRESH;
    let client = message_2(CLIENT, 60, 5, b"x");
    assert_eq!(post(&mut draft, &client), Ok(Posted::Newer));
    assert_eq!(post(&mut draft, &one(b"x")), Ok(Posted::Newer));
    assert_eq!(post(&mut draft, &client), Ok(Posted::Older));
}

/// "A party byte …, 0 exactly if the revision is 0 and otherwise 1 or 2 …; error 1
/// tests for both", ahead of everything else.
#[test]
fn malformed_by_party() {
    for field in FIELDS {
        for text in [&b""[..], b"x"] {
            for revision in [0, 1, 255, 256, u32::MAX] {
                for party in 0..=255 {
                    let mut draft = draft_of(&s(&[]), |_| 1);
                    draft[SLOT_SIZE * slot_of(field)..][..SLOT_SIZE].copy_from_slice(&slot(
                        revision,
                        party,
                        Text::new(text),
                    ));
                    let well_formed = match revision {
                        0 => party == 0 && text.is_empty(),
                        _ => [CLIENT, ADVISER].contains(&party),
                    };
                    let answer = copy(&draft, &mut [0; 390]);
                    assert_eq!(answer.is_ok(), well_formed, "{revision} {party}");
                    if !well_formed {
                        refuses_malformed(&draft);
                    }
                }
            }
        }
    }
}

fn refuses_malformed(draft: &Draft) {
    let refused = Refusal::Malformed;
    let mut after = *draft;
    let message = message_2(CLIENT, 14, u32::MAX, b"");
    assert_eq!(post(&mut after, &message), Err(refused));
    assert_eq!(post(&mut after, b""), Err(refused));
    assert_eq!(take_up(&mut after, &s(&[]).sheet(), 0), Err(refused));
    assert_eq!(after, *draft);
    let mut sheet = [0xEE; 389];
    assert_eq!(copy(draft, &mut sheet), Err(refused));
    let completed = complete(draft, &mut sheet, ORDER_DATE, Record::GIVEN);
    assert_eq!(completed, Err(refused));
    let quick = quick(draft, &mut sheet, ORDER_DATE, Record::GIVEN);
    assert_eq!(quick.answer, Err(refused));
    assert_eq!(pretest(draft), Err(refused));
    assert_eq!(sheet, [0xEE; 389]);
}

/// The parties of a draft make no difference to its sheet and completion.
#[test]
fn the_sheet_drops_the_parties() {
    let random = &mut Random::new(88);
    let order = open(&[(60, "0"), (102, "0")]);
    let adviser = draft_of(&order, |_| 1);
    for _ in 0..100 {
        let mut mixed = adviser;
        for slot in mixed.chunks_mut(SLOT_SIZE) {
            slot[PARTY_PLACE] = random.pick(&[CLIENT, ADVISER]);
        }
        let mut sheets = [[0xEE; 390]; 4];
        let [one, two, three, four] = &mut sheets;
        assert_eq!(copy(&mixed, one), Ok(()));
        assert_eq!(copy(&adviser, two), Ok(()));
        assert_eq!(
            complete(&mixed, three, ORDER_DATE, Record::GIVEN),
            complete(&adviser, four, ORDER_DATE, Record::GIVEN)
        );
        assert_eq!(sheets[0], order.sheet());
        assert_eq!(sheets[0], sheets[1]);
        assert_eq!(sheets[2], sheets[3]);
        assert_eq!(pretest(&mixed), Ok(None));
    }
}

/// A few fields, revisions and texts, so that lists often meet in a slot.
fn some_reading(random: &mut Random, fields: &[u8]) -> Reading<'static> {
    const TEXTS: [&[u8]; 4] = [b"", b"x", b"y", b"1234567890123456789012345"];
    let (version, party) = random.pick(&WRITERS);
    let revision = random.pick(&[1, 256, u32::MAX]);
    (
        version,
        party,
        random.pick(fields),
        revision,
        random.pick(&TEXTS),
    )
}

/// The postings of a list to a fresh draft, and what it ends in.
fn posted(list: &[Vec<u8>]) -> Draft {
    let mut draft = [0xEE; DRAFT_SIZE];
    fresh(&mut draft).unwrap();
    for message in list {
        let before = draft;
        let answer = post(&mut draft, message);
        if answer != Ok(Posted::Newer) {
            assert_eq!(draft, before);
        }
    }
    draft
}

fn laid_out_all(list: &[Reading<'_>]) -> Vec<Vec<u8>> {
    list.iter().map(|&reading| laid_out(reading)).collect()
}

/// The answer of a posting, by what stands in the slot before it.
fn answer_plainly(before: Option<(u32, u8, &[u8])>, message: Reading<'_>) -> &'static str {
    let (_, party, _, revision, text) = message;
    let Some((stored, stored_party, stored_text)) = before else {
        return "newer";
    };
    if revision > stored || revision == stored && party > stored_party {
        "newer"
    } else if revision < stored || party < stored_party {
        "older"
    } else if text == stored_text {
        "same"
    } else {
        "6"
    }
}

/// "With or without it each slot ends with the revision, party and text of the
/// readable message for its field that is greatest by revision, then party, the first
/// in the list among equals"; and each posting's answer.
#[test]
fn every_list_ends_by_the_account() {
    let random = &mut Random::new(888);
    let mut times = [0; 4];
    const WORDS: [&str; 4] = ["newer", "same", "older", "6"];
    for _ in 0..20_000 {
        let fields = [random.pick(&FIELDS), random.pick(&FIELDS)];
        let mut list = Vec::new();
        for _ in 0..random.below(9) {
            let mut message = laid_out(some_reading(random, &fields));
            if random.percent(20) {
                let place = random.below(message.len());
                message[place] = random.pick(&[0, 1, 2, 3, 7]);
            }
            list.push(message);
        }
        let readable: Vec<Reading<'_>> = list.iter().filter_map(|m| read_plainly(m).ok()).collect();
        assert_eq!(posted(&list), draft_after(&readable), "{list:?}");
        let mut draft = FRESH;
        for (place, message) in list.iter().enumerate() {
            let answer = word(post(&mut draft, message));
            let reading = match read_plainly(message) {
                Err(number) => {
                    assert_eq!(answer, number.to_string());
                    continue;
                }
                Ok(reading) => reading,
            };
            // The greatest before it, the first among equals.
            let mut before: Option<(u32, u8, &[u8])> = None;
            for (_, party, field, revision, text) in
                list[..place].iter().filter_map(|m| read_plainly(m).ok())
            {
                if field == reading.2 && before.is_none_or(|b| (revision, party) > (b.0, b.1)) {
                    before = Some((revision, party, text));
                }
            }
            let expected = answer_plainly(before, reading);
            assert_eq!(answer, expected, "{list:?} {place}");
            times[WORDS.iter().position(|&word| word == expected).unwrap()] += 1;
        }
    }
    assert!(times.iter().all(|&times| times > 1000), "{times:?}");
}

/// All arrangements of a list.
fn arrangements(list: &[Reading<'static>]) -> Vec<Vec<Reading<'static>>> {
    if list.is_empty() {
        return vec![Vec::new()];
    }
    let mut all = Vec::new();
    for first in 0..list.len() {
        let mut rest = list.to_vec();
        let head = rest.remove(first);
        for mut tail in arrangements(&rest) {
            tail.insert(0, head);
            all.push(tail);
        }
    }
    all
}

/// Whether two messages clash: "same field, revision and party", but not "same text".
fn clash(one: &Reading<'_>, other: &Reading<'_>) -> bool {
    (one.1, one.2, one.3) == (other.1, other.2, other.3) && one.4 != other.4
}

/// "Same field, revision and party, same text. With it any arrangement ends in one
/// draft."
#[test]
fn arrangements_without_clash_end_alike() {
    let random = &mut Random::new(8888);
    let (mut met, mut parted) = (0, 0);
    for _ in 0..1500 {
        let fields = [random.pick(&FIELDS), random.pick(&FIELDS)];
        let mut list: Vec<Reading<'static>> = Vec::new();
        for _ in 0..random.below(6) {
            let reading = some_reading(random, &fields);
            if !list.iter().any(|other| clash(&reading, other)) {
                list.push(reading);
            }
        }
        let end = posted(&laid_out_all(&list));
        assert_eq!(end, draft_after(&list));
        for arrangement in arrangements(&list) {
            assert_eq!(posted(&laid_out_all(&arrangement)), end, "{list:?}");
        }
        // Parties meet at one revision, with one text or with two.
        for (place, one) in list.iter().enumerate() {
            for other in &list[..place] {
                if (one.2, one.3) == (other.2, other.3) && one.1 != other.1 {
                    met += 1;
                    parted += u32::from(one.4 != other.4);
                }
            }
        }
    }
    assert!(met > 200 && parted > 100, "{met} {parted}");
}

/// "A field that only one party wrote ends the same, whichever messages of the other
/// that don't name it stand before, between or after its own."
#[test]
fn the_other_partys_messages_for_other_fields() {
    let random = &mut Random::new(88_888);
    for _ in 0..5000 {
        let party = random.pick(&[CLIENT, ADVISER]);
        let field = random.pick(&FIELDS);
        let others: Vec<u8> = FIELDS.into_iter().filter(|&other| other != field).collect();
        let mut own = Vec::new();
        while own.len() < 4 {
            let reading = some_reading(random, &[field]);
            if reading.1 == party {
                own.push(reading);
            }
        }
        let alone = posted(&laid_out_all(&own));
        let mut mixed = own.clone();
        for _ in 0..random.below(9) {
            let reading = some_reading(random, &others);
            if reading.1 != party {
                mixed.insert(random.below(mixed.len() + 1), reading);
            }
        }
        let end = posted(&laid_out_all(&mixed));
        assert_eq!(slot_in(&end, field), slot_in(&alone, field), "{mixed:?}");
        assert_ne!(slot_in(&end, field)[PARTY_PLACE], 0);
    }
}

/// Taking up makes a slot the adviser's, whoever wrote the blank in it.
#[test]
fn taking_up_is_the_advisers() {
    let order = open(&[(60, "0"), (102, "0")]);
    let bit = 1 << slot_of(105);
    for party in [CLIENT, ADVISER] {
        let mut draft = draft_of(&order, |text| u32::from(!text.is_empty()));
        let blank = message_2(party, 105, 7, b"");
        assert_eq!(post(&mut draft, &blank), Ok(Posted::Newer));
        let mut sheet = [0; 390];
        assert!(complete(&draft, &mut sheet, ORDER_DATE, Record::GIVEN).is_ok());
        assert_eq!(take_up(&mut draft, &sheet, bit), Ok(()));
        assert_eq!(slot_in(&draft, 105), slot(8, ADVISER, Text::new(b"0")));
        // The client's equal revision does not stand over it.
        let client = message_2(CLIENT, 105, 8, b"45000000");
        assert_eq!(post(&mut draft, &client), Ok(Posted::Older));
    }
    // The greatest revision has none after it, though the adviser's would stand.
    let mut draft = FRESH;
    let last = message_2(CLIENT, 105, u32::MAX, b"");
    assert_eq!(post(&mut draft, &last), Ok(Posted::Newer));
    let before = draft;
    let refused = Err(Refusal::NotTakenUp { field: 105 });
    assert_eq!(take_up(&mut draft, &s(&[]).sheet(), bit), refused);
    assert_eq!(draft, before);
}

/// "After a 2 it stops reading", after the later one too; not after a 3 or 13.
#[test]
fn the_program_stops_after_either_2() {
    let good = message_1(14, 1, b"004525987");
    let too_long = [&[0, 32, 1, 14, 0, 0, 0, 1][..], &[b'7'; 26]].concat();
    let too_short = vec![0, 6, 2, CLIENT, 14, 0, 0, 1];
    for bad in [too_long, too_short] {
        let input = [&good[..], &bad, &good].concat();
        assert_eq!(report(&input), b"1 newer\n2 2\nend 8 17 3\n");
    }
    let unknown = [&[0, 32, 3][..], &[0; 31]].concat();
    let input = [&unknown[..], &message_2(0, 14, 1, b""), &good, &good].concat();
    assert_eq!(report(&input), b"1 3\n2 13\n3 newer\n4 same\nend 8 17 3\n");
    let beyond = [&[0, 32 + 1, 3][..], &[0; 32], &good].concat();
    assert_eq!(report(&beyond), b"1 2\nend 8 14 1\n");
}

/// A client's document number beside the adviser's order.
#[test]
fn the_program_with_two_parties() {
    let order = open(&[(101, "24"), (60, "0"), (102, "0"), (108, "01;1")]);
    let mut input = order.written();
    let count = input.len();
    input.push(message_2(CLIENT, 108, 1, b"01;2"));
    input.push(message_2(CLIENT, 108, 2, b"01;3"));
    input.push(message_1(108, 2, b"01;4"));
    input.push(message_2(ADVISER, 108, 2, b"01;4"));
    let output = String::from_utf8(report(&input.concat())).unwrap();
    let words = ["older", "newer", "newer", "same"];
    let lines: String = (count + 1..)
        .zip(words)
        .map(|(number, word)| format!("{number} {word}\n"))
        .collect();
    assert!(output.contains(&(lines + "end ok 1\n")), "{output}");
    assert!(output.contains("\n108 01;4\n"), "{output}");
}

/// The program as document 01 has it, for messages of version 1: it knows no party.
fn report_plainly(input: &[u8]) -> Vec<u8> {
    let mut output = Vec::new();
    let mut slots: [(u32, &[u8]); 15] = [(0, &[]); 15];
    let (mut place, mut number) = (0, 0);
    while place < input.len() {
        number += 1;
        let left = &input[place..];
        let whole = left.len() >= HEAD_1
            && left[0] == 0
            && (6..=31).contains(&left[1])
            && left.len() >= 2 + usize::from(left[1]);
        if !whole {
            output.extend(format!("{number} 2\n").bytes());
            break;
        }
        let message = &left[..2 + usize::from(left[1])];
        place += message.len();
        assert_eq!(message[2], 1);
        let revision = u32::from_be_bytes(message[4..HEAD_1].try_into().unwrap());
        let text = &message[HEAD_1..];
        let slot = FIELDS.iter().position(|&field| field == message[3]);
        let answer = match slot {
            None => "4",
            Some(_) if revision == 0 => "5",
            Some(slot) if revision > slots[slot].0 => {
                slots[slot] = (revision, text);
                "newer"
            }
            Some(slot) if revision < slots[slot].0 => "older",
            Some(slot) if text == slots[slot].1 => "same",
            Some(_) => "6",
        };
        output.extend(format!("{number} {answer}\n").bytes());
    }
    let mut draft = FRESH;
    for (bytes, (revision, text)) in draft.chunks_mut(SLOT_SIZE).zip(slots) {
        if revision != 0 {
            bytes.copy_from_slice(&slot(revision, ADVISER, Text::new(text)));
        }
    }
    let mut sheet = [0; 390];
    match complete(&draft, &mut sheet, ORDER_DATE, Record::GIVEN) {
        Err(refusal) => output.extend(format!("end {refusal}\n").bytes()),
        Ok(completed) => {
            output.extend(format!("end ok {}\n", completed.count).bytes());
            for (field, slot) in FIELDS.into_iter().zip(sheet.chunks(26)) {
                let text = &slot[1..][..usize::from(slot[0])];
                let text = if text.is_empty() { b"-" } else { text };
                output.extend(format!("{field} ").bytes());
                output.extend(text);
                output.push(b'\n');
            }
        }
    }
    output
}

/// Streams of version 1 alone are reported as before.
#[test]
fn streams_of_version_1() {
    let random = &mut Random::new(81);
    let mut ends = [0; 3];
    for _ in 0..5000 {
        let blanks = [random.pick(&FIELDS), random.pick(&FIELDS)];
        let blank = random.pick(&[&[][..], &blanks]);
        let mut list = open(&[(60, "0"), (102, "0")]).without(blank).written();
        for _ in 0..random.below(6) {
            let (_, _, field, revision, text) = some_reading(random, &FIELDS);
            let message = match random.below(8) {
                0 => message_1(random.byte(), revision, text),
                1 => message_1(field, 0, text),
                2 => message_1(field, 1, b"0"),
                3 if random.percent(20) => message_1(field, revision, &[b'7'; 26]),
                _ if random.percent(60) => message_1(22, revision, b"0"),
                _ => message_1(field, revision, text),
            };
            list.insert(random.below(list.len() + 1), message);
        }
        let mut input = list.concat();
        if random.percent(20) {
            input.truncate(random.below(input.len()));
        }
        let output = report(&input);
        assert_eq!(output, report_plainly(&input), "{input:?}");
        let text = String::from_utf8_lossy(&output);
        let end = text.lines().find(|line| line.starts_with("end ")).unwrap();
        ends[match &end[..5] {
            "end o" => 0,
            "end 8" => 1,
            _ => 2,
        }] += 1;
    }
    assert!(ends.iter().all(|&times| times > 100), "{ends:?}");
}

//! The client writes into the same draft: its sentences, on messages and drafts.

use cases::{draft_slot, message, message_2, set_slot, slot_of, Draft, Text, Texts};
use cases::{ADVISER, CLIENT, DRAFT_SIZE, DRAFT_SLOT_SIZE, PARTIES, PARTY_PLACE};
use kieselbrot::{complete, copy, fresh, post, pretest, read, take_up, write};
use kieselbrot::{Date, Message, Party, Posted, Refusal, Terms, Version};
use kieselbrot::{MESSAGE_HEAD_SIZE_1, MESSAGE_HEAD_SIZE_2, MESSAGE_MAX, TEXT_MAX};

/// The versions with the parties that they carry, and the size of their head.
const CARRIED: [(Version, Party, usize); 3] = [
    (Version::ONE, Party::ADVISER, MESSAGE_HEAD_SIZE_1),
    (Version::TWO, Party::CLIENT, MESSAGE_HEAD_SIZE_2),
    (Version::TWO, Party::ADVISER, MESSAGE_HEAD_SIZE_2),
];

#[test]
fn sizes_are_those_of_the_library() {
    assert_eq!(kieselbrot::DRAFT_SIZE, DRAFT_SIZE);
    assert_eq!(kieselbrot::DRAFT_SLOT_SIZE, DRAFT_SLOT_SIZE);
    // 450 was the size before R-8.
    for size in [0, 450, DRAFT_SIZE - 1, DRAFT_SIZE, DRAFT_SIZE + 1] {
        let mut draft = vec![9; size];
        assert_eq!(fresh(&mut draft).is_ok(), size == DRAFT_SIZE);
    }
}

#[test]
fn messages_and_their_readings_match_one_to_one() {
    for (version, party, head_size) in CARRIED {
        for length in 0..=TEXT_MAX {
            let text = &[b'7'; TEXT_MAX][..length];
            let (field, revision) = (108, 258);
            let mut buffer = [0xEE; MESSAGE_MAX + 1];
            let size = write(version, party, field, revision, text, &mut buffer);
            assert_eq!(size, Ok(head_size + length));
            let (bytes, rest) = buffer.split_at(head_size + length);
            assert!(rest.iter().all(|&byte| byte == 0xEE));
            let expected = match version {
                Version::ONE => message(field, revision, text),
                _ => message_2(party.0, field, revision, text),
            };
            assert_eq!(bytes, expected);
            let message = Message {
                version,
                party,
                field,
                revision,
                text,
            };
            assert_eq!(read(bytes), Ok(message));
        }
    }
}

/// A message of these bytes behind its L.
fn with_length(body: &[u8]) -> Vec<u8> {
    [&(body.len() as u16).to_be_bytes(), body].concat()
}

#[test]
fn the_order_of_reading() {
    let text = [b'7'; 26];
    let body = |version, rest: &[u8]| with_length(&[&[version], rest].concat());
    let rest = |party, field, revision: u8| [party, field, 0, 0, 0, revision];
    let table = [
        // L is outside 6 to 32, whatever the version.
        (body(9, &[0; 4]), Refusal::Length),
        (body(9, &[0; 32]), Refusal::Length),
        // Then the version, also with an L that none or only the other allows.
        (body(0, &[0; 5]), Refusal::UnknownVersion),
        (body(3, &[0; 31]), Refusal::UnknownVersion),
        // Then an L that the version does not allow.
        (body(2, &[9, 9, 0, 0, 0]), Refusal::Length),
        (
            body(1, &[&[9, 0, 0, 0, 0][..], &text].concat()),
            Refusal::Length,
        ),
        // Then the party, the field and the revision.
        (body(2, &rest(0, 9, 0)), Refusal::UnknownParty),
        (body(2, &rest(3, 108, 1)), Refusal::UnknownParty),
        (body(2, &rest(255, 108, 0)), Refusal::UnknownParty),
        (body(2, &rest(CLIENT, 9, 0)), Refusal::UnknownField),
        (body(2, &rest(ADVISER, 108, 0)), Refusal::RevisionZero),
    ];
    for (bytes, refusal) in table {
        assert_eq!(read(&bytes), Err(refusal), "{bytes:?}");
        let mut draft = [0; DRAFT_SIZE];
        assert_eq!(post(&mut draft, &bytes), Err(refusal));
        assert_eq!(draft, [0; DRAFT_SIZE]);
    }
}

#[test]
fn the_order_of_writing() {
    let mut buffer = [0xEE; MESSAGE_MAX];
    let mut refused = |version, party, field, revision, length: usize, size: usize| {
        let text = &[b'7'; TEXT_MAX + 1][..length];
        let (version, party) = (Version(version), Party(party));
        let buffer = &mut buffer[..size];
        let answer = write(version, party, field, revision, text, buffer);
        assert!(buffer.iter().all(|&byte| byte == 0xEE));
        answer.expect_err("a refusal")
    };
    for version in [0, 3, 255] {
        assert_eq!(refused(version, 9, 9, 0, 26, 0), Refusal::Length);
        assert_eq!(refused(version, 9, 9, 0, 25, 0), Refusal::UnknownVersion);
        assert_eq!(
            refused(version, CLIENT, 108, 1, 0, 34),
            Refusal::UnknownVersion
        );
    }
    for (version, party) in [(1, 0), (1, CLIENT), (1, 3), (2, 0), (2, 3), (2, 255)] {
        let unknown = Refusal::UnknownParty;
        assert_eq!(refused(version, party, 9, 0, 25, 0), unknown);
        assert_eq!(refused(version, party, 108, 1, 25, 34), unknown);
    }
    for (version, party, head_size) in CARRIED {
        let (version, party) = (version.0, party.0);
        assert_eq!(refused(version, party, 9, 0, 0, 0), Refusal::UnknownField);
        assert_eq!(refused(version, party, 108, 0, 0, 0), Refusal::RevisionZero);
        let short = refused(version, party, 108, 1, 2, head_size + 1);
        assert_eq!(short, Refusal::Output);
    }
}

/// A message of a party: the adviser's in version 1 or 2.
fn messages(party: u8, revision: u32, text: &[u8]) -> Vec<Vec<u8>> {
    let second = message_2(party, 108, revision, text);
    match party {
        ADVISER => vec![message(108, revision, text), second],
        _ => vec![second],
    }
}

/// The draft with this and nothing else in the slot of 108.
fn held(revision: u32, party: u8, text: &[u8]) -> Draft {
    let mut draft = [0; DRAFT_SIZE];
    set_slot(&mut draft, 108, revision, party, text);
    draft
}

/// Posting the message of a party answers this; newer is stored, with its party.
#[track_caller]
fn posts(before: &Draft, party: u8, revision: u32, text: &[u8], answer: Result<Posted, Refusal>) {
    for bytes in messages(party, revision, text) {
        let mut draft = *before;
        assert_eq!(post(&mut draft, &bytes), answer);
        let expected = match answer {
            Ok(Posted::Newer) => held(revision, party, text),
            _ => *before,
        };
        assert_eq!(draft, expected);
    }
}

#[test]
fn the_higher_revision_stands_and_at_equal_ones_the_adviser() {
    for party in PARTIES {
        posts(&held(0, 0, b""), party, 1, b"17", Ok(Posted::Newer));
        for stored in PARTIES {
            let before = held(5, stored, b"17");
            for text in [&b"17"[..], b"18", b""] {
                posts(&before, party, 6, text, Ok(Posted::Newer));
                posts(&before, party, 4, text, Ok(Posted::Older));
                let equal = match (stored, party) {
                    (CLIENT, ADVISER) => Ok(Posted::Newer),
                    (ADVISER, CLIENT) => Ok(Posted::Older),
                    _ if text == b"17" => Ok(Posted::Same),
                    _ => Err(Refusal::Clash),
                };
                posts(&before, party, 5, text, equal);
            }
        }
    }
}

/// A field that only one party wrote ends the same, whatever the other writes to others.
#[test]
fn a_field_of_one_party() {
    let own = [
        message_2(CLIENT, 108, 1, b"17"),
        message_2(CLIENT, 108, 2, b"18"),
    ];
    let others = [
        message(107, 9, b"0"),
        message_2(ADVISER, 106, 9, b"0"),
        message(108, 0, b"19"),
    ];
    for place in 0..=own.len() {
        for count in 0..=others.len() {
            let mut list = own.to_vec();
            list.splice(place..place, others[..count].to_vec());
            let mut draft = [0; DRAFT_SIZE];
            for bytes in &list {
                let _ = post(&mut draft, bytes);
            }
            let slot = &draft[DRAFT_SLOT_SIZE * slot_of(108)..][..DRAFT_SLOT_SIZE];
            assert_eq!(slot, draft_slot(2, CLIENT, &Text::new(b"18")));
        }
    }
}

/// Each slot with each party byte: 0 exactly if the revision is 0, otherwise 1 or 2.
#[test]
fn malformed_slots() {
    let whole = Texts::s()
        .without(&[105])
        .draft(|text| u32::from(!text.is_empty()));
    let sheet = Texts::s().sheet();
    for (number, bytes) in whole.chunks_exact(DRAFT_SLOT_SIZE).enumerate() {
        let never = bytes[..4] == [0; 4];
        for party in 0..=u8::MAX {
            let mut draft = whole;
            draft[DRAFT_SLOT_SIZE * number + PARTY_PLACE] = party;
            let formed = match never {
                true => party == 0,
                false => PARTIES.contains(&party),
            };
            let malformed = |refusal: Option<Refusal>| {
                assert_eq!(
                    refusal == Some(Refusal::Malformed),
                    !formed,
                    "{number} {party}"
                );
            };
            let mut output = [0; kieselbrot::SHEET_SIZE];
            malformed(copy(&draft, &mut output).err());
            malformed(pretest(&draft).err());
            malformed(complete(&draft, &mut output, Terms::given(Date(20240101))).err());
            malformed(take_up(&mut draft.to_vec(), &sheet, 0).err());
            malformed(post(&mut draft, &message(108, 1, b"0")).err());
        }
    }
}

/// Neither the rules nor completion see who wrote a text.
#[test]
fn the_party_is_not_in_the_sheet() {
    let advised = Texts::s().without(&[101]).draft(|_| 1);
    let mut given = advised;
    for slot in given.chunks_exact_mut(DRAFT_SLOT_SIZE) {
        slot[PARTY_PLACE] = CLIENT;
    }
    let answers = |draft: &Draft| {
        let (mut copied, mut filled) = ([0; 390], [0; 390]);
        let copying = copy(draft, &mut copied);
        let completed = complete(draft, &mut filled, Terms::given(Date(20240101)));
        (copying, pretest(draft), completed, copied, filled)
    };
    assert_ne!(given, advised);
    assert_eq!(answers(&given), answers(&advised));
}

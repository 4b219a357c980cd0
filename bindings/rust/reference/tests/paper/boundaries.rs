//! Sizes, lengths, pads, versions, revisions and the order of refusals.

use cases::{Text, FIELDS};
use reference::{copy, fresh, post, read, report, write};
use reference::{Class, Message, Posted, Refusal, DRAFT_SIZE, SLOT_SIZE};

use crate::layout::{message_1, message_2, slot, ADVISER, CLIENT};
use crate::layout::{HEAD_1, HEAD_2, LENGTH_PLACE, PARTY_PLACE};
use crate::support::{broken, check, complete, draft, sheet, Change};

/// The sheet's bytes, cut or extended with zeros to a size.
fn resized(mut bytes: Vec<u8>, size: usize) -> Vec<u8> {
    bytes.resize(size, 0);
    bytes
}

#[test]
fn refusals_have_their_numbers() {
    let refusals = [
        Refusal::Malformed,
        Refusal::Length,
        Refusal::Version,
        Refusal::UnknownField,
        Refusal::RevisionZero,
        Refusal::Clash,
        Refusal::Output,
        broken(14, 1),
        Refusal::Ordinary,
        Refusal::NoFilling { count: 1 },
    ];
    for (refusal, number) in refusals.iter().zip(1..) {
        assert_eq!(refusal.number(), number);
    }
    assert_eq!(broken(109, 34).to_string(), "8 109 34");
    assert_eq!(Refusal::NoFilling { count: 1056 }.to_string(), "10 1056");
    assert_eq!(Refusal::Ordinary.to_string(), "9");
}

#[test]
fn sheets_of_another_size_are_malformed() {
    for size in [0, 1, 26, 364, 389, 391, 416, DRAFT_SIZE, 780] {
        let bytes = resized(sheet(&[]), size);
        assert_eq!(check(&bytes), Err(Refusal::Malformed), "size {size}");
    }
}

#[test]
fn sheets_with_a_long_text_are_malformed() {
    for slot in 0..15 {
        for length in [26, 27, 128, 255] {
            let mut bytes = sheet(&[]);
            bytes[26 * slot] = length;
            assert_eq!(check(&bytes), Err(Refusal::Malformed), "slot {slot}");
        }
    }
}

#[test]
fn every_pad_byte_counts() {
    let good = sheet(&[]);
    for slot in 0..15 {
        let length = usize::from(good[26 * slot]);
        for place in 0..25 {
            let mut bytes = good.clone();
            bytes[26 * slot + 1 + place] ^= 0x80;
            let malformed = check(&bytes) == Err(Refusal::Malformed);
            assert_eq!(malformed, place >= length, "slot {slot}, place {place}");
        }
    }
}

#[test]
fn malformed_comes_before_the_rules() {
    let mut bytes = sheet(&[(14, b"")]);
    assert_eq!(check(&bytes), Err(broken(14, 1)));
    bytes[389] = 1;
    assert_eq!(check(&bytes), Err(Refusal::Malformed));
    assert_eq!(check(&[0; 390]), Err(broken(14, 1)));
}

#[test]
fn a_text_of_25_bytes_leaves_no_pad() {
    let bytes = sheet(&[(22, b"1234567890123456789012345")]);
    assert_eq!(check(&bytes), Ok(Class::A));
}

#[test]
fn a_zero_byte_in_a_text_is_no_pad() {
    assert_eq!(check(&sheet(&[(22, b"0\0")])), Err(broken(22, 7)));
    assert_eq!(check(&sheet(&[(101, b"01\0")])), Err(broken(101, 10)));
}

#[test]
fn reading_short_messages() {
    for size in 0..HEAD_1 {
        assert_eq!(read(&vec![0; size]), Err(Refusal::Length), "size {size}");
        let cut = &message_1(14, 1, b"")[..size];
        assert_eq!(read(cut), Err(Refusal::Length), "size {size}");
    }
}

#[test]
fn reading_lengths_5_6_31_32() {
    let with_length = |length: u8| {
        let mut bytes = vec![0, length, 1, 14, 0, 0, 0, 1];
        bytes.resize(2 + usize::from(length), b'7');
        bytes
    };
    assert_eq!(read(&with_length(5)), Err(Refusal::Length));
    let shortest = Message {
        version: 1,
        party: ADVISER,
        field: 14,
        revision: 1,
        text: b"",
    };
    assert_eq!(read(&with_length(6)), Ok(shortest));
    let longest = Message {
        text: &[b'7'; 25],
        ..shortest
    };
    assert_eq!(read(&with_length(31)), Ok(longest));
    assert_eq!(read(&with_length(32)), Err(Refusal::Length));
    assert_eq!(read(&with_length(255)), Err(Refusal::Length));
}

#[test]
fn reading_a_length_one_off() {
    for text in [&b""[..], b"1", &[b'7'; 24], &[b'7'; 25]] {
        let good = message_1(14, 1, text);
        assert!(read(&good).is_ok());
        for length in [good[1] - 1, good[1] + 1] {
            let mut bad = good.clone();
            bad[1] = length;
            assert_eq!(read(&bad), Err(Refusal::Length));
        }
        let mut high = good.clone();
        high[0] = 1;
        assert_eq!(read(&high), Err(Refusal::Length));
        let longer = [&good[..], b"x"].concat();
        assert_eq!(read(&longer), Err(Refusal::Length));
        assert_eq!(read(&good[..good.len() - 1]), Err(Refusal::Length));
    }
}

#[test]
fn reading_a_long_length_that_fits() {
    // L = 0x0106, and indeed so many bytes follow.
    let mut bytes = vec![1, 6, 1, 14, 0, 0, 0, 1];
    bytes.resize(2 + 0x0106, b'7');
    assert_eq!(read(&bytes), Err(Refusal::Length));
}

#[test]
fn reading_versions() {
    for version in 0..=255 {
        let mut bytes = message_1(14, 1, b"1");
        bytes[2] = version;
        assert_eq!(read(&bytes).is_ok(), version == 1);
        // In version 2 the field's number is in the party's place.
        match version {
            1 => {}
            2 => assert_eq!(read(&bytes), Err(Refusal::Party)),
            _ => assert_eq!(read(&bytes), Err(Refusal::Version)),
        }
    }
}

#[test]
fn reading_and_writing_all_field_numbers() {
    for field in 0..=255 {
        let mut buffer = [0; 40];
        let written = write(1, ADVISER, field, 7, b"text", &mut buffer);
        let bytes = message_1(field, 7, b"text");
        let read = read(&bytes);
        if FIELDS.contains(&field) {
            let expected = Message {
                version: 1,
                party: ADVISER,
                field,
                revision: 7,
                text: b"text",
            };
            assert_eq!(read, Ok(expected));
            assert_eq!(written, Ok(12));
            assert_eq!(buffer[..12], bytes);
        } else {
            assert_eq!(read, Err(Refusal::UnknownField));
            assert_eq!(written, Err(Refusal::UnknownField));
            assert_eq!(buffer, [0; 40]);
        }
    }
}

#[test]
fn reading_revisions() {
    for revision in [1, 0x100, 0x0102_0304, u32::MAX] {
        let bytes = message_1(109, revision, b"");
        assert_eq!(read(&bytes).map(|m| m.revision), Ok(revision));
    }
    assert_eq!(read(&message_1(14, 0, b"")), Err(Refusal::RevisionZero));
}

#[test]
fn reading_refuses_in_number_order() {
    // Everything wrong, then mended one by one.
    let mut bytes = vec![0, 7, 0, 0, 0, 0, 0, 0];
    assert_eq!(read(&bytes), Err(Refusal::Length));
    bytes[1] = 6;
    assert_eq!(read(&bytes), Err(Refusal::Version));
    bytes[2] = 1;
    assert_eq!(read(&bytes), Err(Refusal::UnknownField));
    bytes[3] = 14;
    assert_eq!(read(&bytes), Err(Refusal::RevisionZero));
    bytes[7] = 1;
    assert!(read(&bytes).is_ok());
}

#[test]
fn the_text_is_a_part_of_the_callers_message() {
    let bytes = message_1(14, 1, b"004525987");
    let text = read(&bytes).map(|m| m.text.as_ptr_range());
    assert_eq!(text, Ok(bytes[HEAD_1..].as_ptr_range()));
}

#[test]
fn writing_refuses_in_number_order() {
    let long = [b'7'; 26];
    let mut nothing = [];
    let longest = &long[1..];
    let mut write = |version, party, field, revision, text: &[u8]| {
        write(version, party, field, revision, text, &mut nothing)
    };
    assert_eq!(write(0, 0, 0, 0, &long), Err(Refusal::Length));
    assert_eq!(write(0, 0, 0, 0, longest), Err(Refusal::Version));
    assert_eq!(write(1, 0, 0, 0, longest), Err(Refusal::Party));
    assert_eq!(write(1, ADVISER, 0, 0, longest), Err(Refusal::UnknownField));
    assert_eq!(
        write(1, ADVISER, 14, 0, longest),
        Err(Refusal::RevisionZero)
    );
    assert_eq!(write(1, ADVISER, 14, 1, longest), Err(Refusal::Output));
}

#[test]
fn writing_needs_room_and_leaves_the_rest() {
    for length in 0..=25 {
        let text = vec![b'7'; length];
        let one = message_1(61, 2, &text);
        let two = message_2(CLIENT, 61, 2, &text);
        for (version, party, head, message) in [(1, ADVISER, HEAD_1, one), (2, CLIENT, HEAD_2, two)]
        {
            let size = head + length;
            let mut short = vec![0xEE; size - 1];
            let written = write(version, party, 61, 2, &text, &mut short);
            assert_eq!(written, Err(Refusal::Output));
            assert_eq!(short, vec![0xEE; size - 1]);
            for spare in [0, 1, 50] {
                let mut buffer = vec![0xEE; size + spare];
                let written = write(version, party, 61, 2, &text, &mut buffer);
                assert_eq!(written, Ok(size));
                assert_eq!(buffer[..size], message);
                assert_eq!(buffer[size..], vec![0xEE; spare]);
            }
        }
    }
    let mut buffer = [0xEE; 100];
    let written = write(1, ADVISER, 61, 2, &[b'7'; 26], &mut buffer);
    assert_eq!(written, Err(Refusal::Length));
    let written = write(1, ADVISER, 61, 0, b"", &mut buffer);
    assert_eq!(written, Err(Refusal::RevisionZero));
    assert_eq!(buffer, [0xEE; 100]);
}

#[test]
fn writing_the_highest_revision() {
    let mut buffer = [0; HEAD_1];
    let written = write(1, ADVISER, 109, u32::MAX, b"", &mut buffer);
    assert_eq!(written, Ok(HEAD_1));
    assert_eq!(buffer, [0, 6, 1, 109, 255, 255, 255, 255]);
}

#[test]
fn fresh_is_all_zero_whatever_it_held() {
    let mut bytes = [0xEE; DRAFT_SIZE];
    assert_eq!(fresh(&mut bytes), Ok(()));
    assert_eq!(bytes, [0; DRAFT_SIZE]);
    // The size without party bytes is one of the others.
    let partyless = DRAFT_SIZE - FIELDS.len();
    let near = [DRAFT_SIZE - 1, DRAFT_SIZE + 1, 2 * DRAFT_SIZE];
    for size in [0, 1, 390, partyless].into_iter().chain(near) {
        let mut bytes = vec![0xEE; size];
        assert_eq!(fresh(&mut bytes), Err(Refusal::Malformed), "size {size}");
        assert_eq!(bytes, vec![0xEE; size]);
    }
}

/// Drafts malformed in each way of the paper.
fn malformed_drafts() -> Vec<Vec<u8>> {
    let good = draft(&[(22, b"")]);
    let sizes = [
        0,
        1,
        SLOT_SIZE,
        DRAFT_SIZE - SLOT_SIZE,
        DRAFT_SIZE - FIELDS.len(),
        DRAFT_SIZE - 1,
        DRAFT_SIZE + 1,
        DRAFT_SIZE + SLOT_SIZE,
        2 * DRAFT_SIZE,
    ];
    let mut drafts: Vec<Vec<u8>> = sizes.map(|size| resized(good.clone(), size)).into();
    let mut changed = |place: usize, byte: u8| {
        let mut bytes = good.clone();
        bytes[place] = byte;
        drafts.push(bytes);
    };
    for slot in 0..15 {
        changed(SLOT_SIZE * slot + LENGTH_PLACE, 26);
        changed(SLOT_SIZE * slot + LENGTH_PLACE, 255);
        changed(SLOT_SIZE * (slot + 1) - 1, 1);
        // A party 0 with a revision, and unknown ones.
        for party in [0, 3, 255] {
            changed(SLOT_SIZE * slot + PARTY_PLACE, party);
        }
        // Revision 0 with a party, blank or not.
        changed(SLOT_SIZE * slot + PARTY_PLACE - 1, 0);
    }
    // Revision 0 and no party, but a text; slot 3 is blank.
    for slot in (0..15).filter(|&slot| slot != 3) {
        let mut bytes = good.clone();
        bytes[SLOT_SIZE * slot..][..LENGTH_PLACE].fill(0);
        drafts.push(bytes);
    }
    drafts
}

#[test]
fn malformed_drafts_come_first() {
    for bytes in malformed_drafts() {
        let mut posted = bytes.clone();
        assert_eq!(post(&mut posted, b""), Err(Refusal::Malformed));
        assert_eq!(
            post(&mut posted, &message_1(14, 9, b"")),
            Err(Refusal::Malformed)
        );
        assert_eq!(posted, bytes);
        let mut output = [0xEE; 389];
        assert_eq!(copy(&bytes, &mut output), Err(Refusal::Malformed));
        assert_eq!(complete(&bytes, &mut output), Err(Refusal::Malformed));
        assert_eq!(output, [0xEE; 389]);
    }
}

#[test]
fn a_blank_with_any_revision_is_well_formed() {
    for revision in [0, 1, u32::MAX] {
        let mut bytes = draft(&[(22, b"")]);
        let party = if revision == 0 { 0 } else { ADVISER };
        let blank = slot(revision, party, Text::new(b""));
        bytes[3 * SLOT_SIZE..][..SLOT_SIZE].copy_from_slice(&blank);
        let mut output = [0; 390];
        assert_eq!(copy(&bytes, &mut output), Ok(()));
        assert_eq!(output[..], sheet(&[(22, b"")]));
    }
}

#[test]
fn output_sheets_of_another_size() {
    for size in [0, 1, 26, 364, 389, 391, 416, DRAFT_SIZE] {
        let mut output = vec![0xEE; size];
        // 7 comes before 8, 9 and 10.
        for bytes in [draft(&[]), vec![0; DRAFT_SIZE], draft(&[(15, b"")])] {
            assert_eq!(copy(&bytes, &mut output), Err(Refusal::Output));
            assert_eq!(complete(&bytes, &mut output), Err(Refusal::Output));
        }
        assert_eq!(output, vec![0xEE; size]);
    }
}

#[test]
fn posting_by_revision() {
    let mut bytes = vec![0; DRAFT_SIZE];
    let mut send = |revision, text: &[u8]| {
        let before = bytes.clone();
        let answer = post(&mut bytes, &message_1(17, revision, text));
        let changed = bytes != before;
        assert_eq!(changed, answer == Ok(Posted::Newer));
        (answer, bytes[2 * SLOT_SIZE..][..SLOT_SIZE].to_vec())
    };
    let stored = |revision, text: &[u8]| slot(revision, ADVISER, Text::new(text)).to_vec();
    assert_eq!(send(5, b"first"), (Ok(Posted::Newer), stored(5, b"first")));
    assert_eq!(send(5, b"first"), (Ok(Posted::Same), stored(5, b"first")));
    assert_eq!(send(5, b"firs"), (Err(Refusal::Clash), stored(5, b"first")));
    assert_eq!(send(5, b""), (Err(Refusal::Clash), stored(5, b"first")));
    assert_eq!(send(4, b"first"), (Ok(Posted::Older), stored(5, b"first")));
    assert_eq!(send(4, b"other"), (Ok(Posted::Older), stored(5, b"first")));
    assert_eq!(send(6, b"1"), (Ok(Posted::Newer), stored(6, b"1")));
    assert_eq!(send(7, b"1"), (Ok(Posted::Newer), stored(7, b"1")));
    assert_eq!(send(8, b""), (Ok(Posted::Newer), stored(8, b"")));
    assert_eq!(send(8, b""), (Ok(Posted::Same), stored(8, b"")));
    assert_eq!(send(8, b"1"), (Err(Refusal::Clash), stored(8, b"")));
    let highest = [b'9'; 25];
    assert_eq!(
        send(u32::MAX, &highest),
        (Ok(Posted::Newer), stored(u32::MAX, &highest))
    );
    assert_eq!(
        send(u32::MAX - 1, b""),
        (Ok(Posted::Older), stored(u32::MAX, &highest))
    );
    assert_eq!(
        send(0x8000_0000, b""),
        (Ok(Posted::Older), stored(u32::MAX, &highest))
    );
}

#[test]
fn posting_touches_only_its_slot() {
    for (slot, &field) in FIELDS.iter().enumerate() {
        let before = draft(&[]);
        let mut after = before.clone();
        assert_eq!(
            post(&mut after, &message_1(field, 2, b"new")),
            Ok(Posted::Newer)
        );
        for place in 0..DRAFT_SIZE {
            if place / SLOT_SIZE != slot {
                assert_eq!(after[place], before[place]);
            }
        }
        let expected = [&[0, 0, 0, 2, ADVISER, 3][..], b"new", &[0; 22]].concat();
        assert_eq!(after[SLOT_SIZE * slot..][..SLOT_SIZE], expected);
    }
}

#[test]
fn posting_refuses_unreadable_messages() {
    let good = message_1(14, 2, b"1");
    let changed = |place: usize, byte: u8| {
        let mut bytes = good.clone();
        bytes[place] = byte;
        bytes
    };
    let unreadable = [
        (Vec::new(), Refusal::Length),
        (vec![0], Refusal::Length),
        (changed(1, good[1] + 1), Refusal::Length),
        (changed(2, 0), Refusal::Version),
        (changed(2, 3), Refusal::Version),
        (changed(2, 2), Refusal::Party),
        (changed(3, 16), Refusal::UnknownField),
        (changed(7, 0), Refusal::RevisionZero),
    ];
    for (message, refusal) in unreadable {
        let mut bytes = draft(&[]);
        assert_eq!(post(&mut bytes, &message), Err(refusal));
        assert_eq!(bytes, draft(&[]));
    }
}

#[test]
fn completion_refuses_rules_1_to_3_and_class_o() {
    let with = |changes: &[Change]| {
        let mut output = [0xEE; 390];
        let answer = complete(&draft(changes), &mut output);
        assert_eq!(answer.is_ok(), output != [0xEE; 390]);
        answer
    };
    assert_eq!(with(&[(14, b"")]), Err(broken(14, 1)));
    assert_eq!(with(&[(15, b"1"), (17, b"1")]), Err(broken(15, 2)));
    assert_eq!(with(&[(17, b"")]), Err(broken(17, 3)));
    assert_eq!(with(&[(15, b"")]), Err(Refusal::Ordinary));
    assert_eq!(with(&[(15, b""), (101, b"")]), Err(Refusal::Ordinary));
    // Rule 5 is a matter of the fillings, none of which keeps it.
    let rule_5 = (17, &b"03100810000000014800"[..]);
    assert_eq!(with(&[rule_5]), Err(Refusal::NoFilling { count: 1 }));
    assert_eq!(
        with(&[rule_5, (101, b"")]),
        Err(Refusal::NoFilling { count: 22 })
    );
    assert_eq!(
        with(&[(103, b""), (106, b""), (22, b"")]),
        Err(Refusal::NoFilling { count: 12 })
    );
}

#[test]
fn completion_with_nothing_to_fill() {
    let mut output = [0xEE; 390];
    let completed = complete(&draft(&[]), &mut output).expect("S keeps all rules");
    assert_eq!((completed.count, completed.set, completed.ones), (1, 0, 0));
    assert_eq!(output[..], sheet(&[]));
}

#[test]
fn completion_leaves_a_blank_15_blank() {
    let changes = [
        (14, &b"044525000"[..]),
        (15, b""),
        (17, b"40503810000004000000"),
        (104, b""),
    ];
    let mut output = [0xEE; 390];
    let completed = complete(&draft(&changes), &mut output).expect("class B");
    assert_eq!((completed.count, completed.set), (1, 1 << 9));
    assert_eq!(completed.ones, 1);
    let filled = [changes[0], changes[1], changes[2], (104, b"0")];
    assert_eq!(output[..], sheet(&filled));
}

#[test]
fn completion_finds_late_fillings() {
    // 106, 108 and 109 with the customs group: "0", "0", "0" is the first.
    let mut output = [0; 390];
    let customs = [
        (101, &b"06"[..]),
        (107, b"10000000"),
        (106, b""),
        (109, b""),
    ];
    let with = |document: &'static [u8], output: &mut [u8]| {
        let changes = [&customs[..], &[(108, document)]].concat();
        complete(&draft(&changes), output).map(|completed| completed.count)
    };
    assert_eq!(with(b"", &mut output), Ok(1));
    assert_eq!(with(b"00", &mut output), Ok(1));
    // A date "00" given demands 106 "00" and 108 "00": second of twelve, second
    // of two.
    let changes = [
        (101, &b"06"[..]),
        (107, b"10000000"),
        (106, b""),
        (108, b""),
        (109, b"00"),
    ];
    let completed = complete(&draft(&changes), &mut output).expect("a filling");
    assert_eq!(completed.count, 4);
    assert_eq!(completed.set, 1 << 11 | 1 << 13);
    let filled = [
        changes[0],
        changes[1],
        (106, b"00"),
        (108, b"00"),
        changes[4],
    ];
    assert_eq!(output[..], sheet(&filled));
}

#[test]
fn the_program_on_no_input() {
    assert_eq!(report(b""), b"end 8 14 1\n");
}

#[test]
fn the_program_stops_after_a_2() {
    let good = message_1(14, 1, b"004525987");
    assert_eq!(report(&[0]), b"1 2\nend 8 14 1\n");
    assert_eq!(report(&[0, 0]), b"1 2\nend 8 14 1\n");
    let short = [&[0, 5, 1, 14, 0, 0, 1][..], &good].concat();
    assert_eq!(report(&short), b"1 2\nend 8 14 1\n");
    let long = [&[0, 32][..], &[1; 32], &good].concat();
    assert_eq!(report(&long), b"1 2\nend 8 14 1\n");
    let cut = [&good[..], &good[..good.len() - 1]].concat();
    // A blank 15 keeps rule 2, so 17 is the next one broken.
    assert_eq!(report(&cut), b"1 newer\n2 2\nend 8 17 3\n");
}

#[test]
fn the_program_goes_on_after_other_refusals() {
    let mut version = message_1(14, 1, b"1");
    version[2] = 0;
    let input = [
        version,
        message_1(16, 1, b"1"),
        message_1(14, 0, b"1"),
        message_1(14, 2, b"044525000"),
        message_1(14, 2, b"044525000"),
        message_1(14, 2, b""),
        message_1(14, 1, b""),
    ]
    .concat();
    let expected = "1 3\n2 4\n3 5\n4 newer\n5 same\n6 6\n7 older\nend 8 17 3\n";
    assert_eq!(report(&input), expected.as_bytes());
}

#[test]
fn the_program_reads_32768_bytes() {
    // 4,096 messages of 8 bytes are exactly the limit.
    let input = message_1(22, 1, b"").repeat(4097);
    let expected = |count: usize| {
        let lines = (2..=count).map(|n| format!("{n} same\n"));
        "1 newer\n".to_owned() + &lines.collect::<String>() + "end 8 14 1\n"
    };
    assert_eq!(report(&input[..32_760]), expected(4095).as_bytes());
    assert_eq!(report(&input[..32_768]), expected(4096).as_bytes());
    assert_eq!(report(&input), expected(4096).as_bytes());
    // A message across the limit is cut there.
    let mut across = message_1(22, 1, b"").repeat(4095);
    across.extend(message_1(22, 1, b"123"));
    let cut = expected(4095).replace("end", "4096 2\nend");
    assert_eq!(report(&across), cut.as_bytes());
}

//! Claims of the paper over many pseudorandom inputs, against plain
//! restatements of its definitions.

use cases::{filled_set, fillings, messages, Random, Texts};
use reference::{copy, post, read, report, Completed, Refusal, DRAFT_SIZE, MESSAGE_MAX};

use crate::layout::{draft_after, draft_of, HEAD_1};
use crate::support::{check, complete, texts, Change};

/// Sheets near S: each change is made or not.
fn random_changes(random: &mut Random) -> Vec<Change<'static>> {
    const CHOICES: [Change; 48] = [
        (14, b"044525000"),
        (14, b""),
        (15, b""),
        (15, b"1"),
        (17, b"03212643000000014800"),
        (17, b"03222643000000014800"),
        (17, b"03222643000000014800"),
        (17, b"40204810000000000000"),
        (17, b"40503810000004000000"),
        (22, b""),
        (22, b"1234"),
        (22, b"12345678901234567890"),
        (60, b""),
        (60, b"0"),
        (60, b"12345"),
        (60, b"781023456779"),
        (61, b""),
        (101, b""),
        (101, b""),
        (101, b""),
        (101, b"06"),
        (101, b"17"),
        (101, b"24"),
        (101, b"30"),
        (101, b"31"),
        (102, b""),
        (102, b"0"),
        (103, b""),
        (104, b""),
        (104, b"0"),
        (105, b""),
        (106, b""),
        (106, b""),
        (106, b"00"),
        (106, b"\xD2\xC4"),
        (107, b""),
        (107, b"10000000"),
        (107, b"10000000"),
        (108, b""),
        (108, b""),
        (108, b"00"),
        (108, b"01;1"),
        (108, b"1"),
        (109, b""),
        (109, b""),
        (109, b"00"),
        (109, b"01.01.2024"),
        (109, b"31.04.2024"),
    ];
    (0..random.below(9))
        .map(|_| random.pick(&CHOICES))
        .collect()
}

#[test]
fn completion_is_the_first_filling_that_keeps_all_rules() {
    let mut random = Random::new(0x107);
    let (mut found, mut late, mut none) = (0, 0, 0);
    for _ in 0..6000 {
        let given = texts(&random_changes(&mut random));
        let mut output = [0xEE; 390];
        let answer = complete(&draft_of(&given, |_| 1), &mut output);
        if matches!(answer, Err(Refusal::Broken { .. } | Refusal::Ordinary)) {
            assert_eq!(output, [0xEE; 390]);
            continue;
        }
        let all = fillings(&given);
        let accepted = |filling: &Texts| check(&filling.sheet()).is_ok();
        let Some(index) = all.iter().position(accepted) else {
            none += 1;
            let count = u32::try_from(all.len()).expect("at most 1,056");
            assert_eq!(answer, Err(Refusal::NoFilling { count }));
            assert_eq!(output, [0xEE; 390]);
            continue;
        };
        found += 1;
        late += usize::from(index > 0);
        let set = filled_set(&given);
        let completed = Completed {
            count: u32::try_from(index + 1).expect("at most 1,056"),
            set,
            ones: set.count_ones(),
        };
        assert_eq!(answer, Ok(completed));
        assert_eq!(output, all[index].sheet());
    }
    assert!(
        found > 500 && late > 50 && none > 500,
        "{found} {late} {none}"
    );
}

#[test]
fn class_o_and_rules_1_to_3_are_as_in_checking() {
    let mut random = Random::new(0x40102);
    for _ in 0..6000 {
        let given = texts(&random_changes(&mut random));
        let mut output = [0xEE; 390];
        let answer = complete(&draft_of(&given, |_| 1), &mut output);
        let verdict = check(&given.without(&[101]).sheet());
        match verdict {
            Err(refusal @ Refusal::Broken { rule: 1..=3, .. }) => {
                assert_eq!(answer, Err(refusal));
            }
            Ok(reference::Class::O) => assert_eq!(answer, Err(Refusal::Ordinary)),
            _ => assert!(matches!(answer, Ok(_) | Err(Refusal::NoFilling { .. }))),
        }
    }
}

/// "Each slot ends with the revision, party and text of the readable message for
/// its field that is greatest by revision, then party, the first in the list among
/// equals"; "it is all zero if none names the field."
#[test]
fn a_list_of_postings_ends_in_the_draft_of_the_paper() {
    let mut random = Random::new(3);
    for _ in 0..3000 {
        let list = messages(&mut random);
        let mut draft = [0; DRAFT_SIZE];
        for bytes in &list {
            let before = draft;
            if post(&mut draft, bytes).is_err() {
                assert_eq!(draft, before);
            }
        }
        let readable: Vec<_> = list
            .iter()
            .filter_map(|bytes| read(bytes).ok())
            .map(|m| (m.version, m.party, m.field, m.revision, m.text))
            .collect();
        assert_eq!(draft, draft_after(&readable));
    }
}

#[test]
fn nothing_panics_on_noise() {
    const SIZES: [usize; 13] = [
        0,
        1,
        HEAD_1 - 1,
        HEAD_1,
        MESSAGE_MAX - 1,
        MESSAGE_MAX,
        389,
        390,
        391,
        DRAFT_SIZE - 1,
        DRAFT_SIZE,
        DRAFT_SIZE + 1,
        600,
    ];
    let mut random = Random::new(0xDEAD);
    for _ in 0..3000 {
        let size = random.pick(&SIZES);
        let mut bytes: Vec<u8> = (0..size).map(|_| random.byte()).collect();
        let mut output = vec![0; random.pick(&[0, 389, 390, 391])];
        let _ = check(&bytes);
        let _ = read(&bytes);
        let _ = copy(&bytes, &mut output);
        let _ = complete(&bytes, &mut output);
        let message = bytes.clone();
        let _ = post(&mut bytes, &message);
        assert!(report(&bytes).ends_with(b"\n"));
    }
}

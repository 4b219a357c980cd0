//! Every example of the paper, starred or not.

use cases::{Texts, BLANKS};
use reference::{copy, post, report, Class, Completed, Posted, Refusal};

use crate::layout::{draft_of, message_1, Draft};
use crate::support::{broken, check, complete, draft, sheet, texts, Change};

#[test]
fn sheet_s() {
    assert_eq!(check(&sheet(&[])), Ok(Class::A));
    assert_eq!(check(&sheet(&[(102, b"0")])), Ok(Class::A));
    assert_eq!(
        check(&sheet(&[(101, b"08"), (102, b"0")])),
        Err(broken(102, 27))
    );
}

#[test]
fn statuses_02_and_31() {
    assert_eq!(check(&sheet(&[(101, b"02")])), Err(broken(101, 10)));
    assert_eq!(check(&sheet(&[(101, b"31")])), Err(broken(17, 20)));
}

#[test]
fn four_digits_are_no_uin() {
    let changes: &[Change] = &[(17, b"03212643000000014800"), (101, b"31"), (22, b"1234")];
    assert_eq!(check(&sheet(changes)), Err(broken(22, 21)));
}

#[test]
fn a_foreign_code_is_no_inn() {
    assert_eq!(
        check(&sheet(&[(101, b"13"), (60, b"12345")])),
        Err(broken(60, 24))
    );
}

#[test]
fn status_24() {
    let with = |document| {
        check(&sheet(&[
            (101, b"24"),
            (60, b"0"),
            (102, b"0"),
            (108, document),
        ]))
    };
    assert_eq!(with(b"14;11223344595"), Ok(Class::A));
    assert_eq!(with(b"0"), Err(broken(108, 25)));
}

#[test]
fn class_b() {
    let with = |account| check(&sheet(&[(14, b"044525000"), (15, b""), (17, account)]));
    assert_eq!(with(b"40503810000004000000"), Ok(Class::B));
    assert_eq!(with(b"40503810000000000000"), Err(broken(101, 4)));
}

#[test]
fn zero_and_two_zeros_differ() {
    let with = |date| {
        check(&sheet(&[
            (101, b"06"),
            (107, b"10000000"),
            (106, b"00"),
            (108, b"00"),
            (109, date),
        ]))
    };
    assert_eq!(with(b"00"), Ok(Class::A));
    assert_eq!(with(b"0"), Err(broken(109, 34)));
}

#[test]
fn leap_days() {
    assert_eq!(check(&sheet(&[(109, b"29.02.2023")])), Err(broken(109, 18)));
    assert_eq!(check(&sheet(&[(109, b"29.02.2024")])), Err(broken(109, 31)));
}

/// The set of the slots of `BLANKS`: 3, 6 and 10 to 14.
const BLANK_SET: u16 = 0b0111_1100_0100_1000;

fn with_blanks(changes: &[Change<'_>]) -> Draft {
    draft_of(&texts(changes).without(&BLANKS), |_| 1)
}

#[test]
fn completion_count_1() {
    let mut output = [0xEE; 390];
    let completed = Completed {
        count: 1,
        set: BLANK_SET,
        ones: 7,
    };
    assert_eq!(complete(&with_blanks(&[]), &mut output), Ok(completed));
    assert_eq!(output[..], sheet(&[]));
}

#[test]
fn completion_count_97() {
    let draft = with_blanks(&[(60, b"0"), (102, b"0")]);
    let mut output = [0xEE; 390];
    let completed = Completed {
        count: 97,
        set: BLANK_SET,
        ones: 7,
    };
    assert_eq!(complete(&draft, &mut output), Ok(completed));
    assert_eq!(output[..], sheet(&[(60, b"0"), (102, b"0"), (101, b"04")]));
}

#[test]
fn completion_without_filling() {
    let account: Change = (17, b"03212643000000014800");
    for more in [&[account][..], &[account, (60, b"0"), (102, b"0")]] {
        let mut output = [0xEE; 390];
        assert_eq!(
            complete(&with_blanks(more), &mut output),
            Err(Refusal::NoFilling { count: 1056 })
        );
        assert_eq!(output, [0xEE; 390]);
    }
}

/// "Tempting: letting the last arrival win".
#[test]
fn the_last_arrival_does_not_win() {
    let mut draft = draft(&[]);
    let before = draft.clone();
    assert_eq!(
        post(&mut draft, &message_1(101, 3, b"08")),
        Ok(Posted::Newer)
    );
    let after = draft.clone();
    assert_eq!(
        post(&mut draft, &message_1(101, 2, b"05")),
        Ok(Posted::Older)
    );
    assert_eq!(draft, after);
    assert_ne!(draft, before);
    let mut output = [0; 390];
    assert_eq!(copy(&draft, &mut output), Ok(()));
    assert_eq!(output[..], sheet(&[(101, b"08")]));
}

/// "Tempting: filling a blank 61".
#[test]
fn a_blank_61_is_not_filled() {
    let mut output = [0xEE; 390];
    assert_eq!(
        complete(&draft(&[(61, b"")]), &mut output),
        Err(Refusal::NoFilling { count: 1 })
    );
    assert_eq!(output, [0xEE; 390]);
}

#[test]
fn the_program_example() {
    let input = [
        0x00, 0x0A, 0x01, 0x0E, 0x00, 0x00, 0x00, 0x01, 0x30, 0x30, 0x34, 0x35,
    ];
    assert_eq!(report(&input), b"1 newer\nend 8 14 1\n");
}

fn answers(count: usize) -> String {
    (1..=count).map(|n| format!("{n} newer\n")).collect()
}

#[test]
fn the_program_prints_sheet_s() {
    let expected = answers(15)
        + "end ok 1\n14 004525987\n15 40102810845370000004\n17 03100643000000014800\n22 0\n\
           60 7701569743\n61 6730054024\n101 01\n102 770301001\n103 772801001\n\
           104 18201061201010000510\n105 0\n106 0\n107 0\n108 0\n109 0\n";
    assert_eq!(report(&Texts::s().messages(1)), expected.as_bytes());
}

#[test]
fn the_program_prints_a_hyphen_for_a_blank_15() {
    let changes: [Change; 3] = [(14, b"044525000"), (15, b""), (17, b"40503810000004000000")];
    let output = report(&texts(&changes).messages(1));
    let output = String::from_utf8(output).expect("ASCII");
    assert!(output.contains("\nend ok 1\n14 044525000\n15 -\n17 40503810000004000000\n"));
}

#[test]
fn the_program_prints_windows_1251() {
    let changes: [Change; 4] = [(101, b"06"), (107, b"10000000"), (106, b""), (108, b"1")];
    let output = report(&texts(&changes).messages(1));
    assert!(output.ends_with(b"\n106 0\n107 10000000\n108 1\n109 0\n"));
    let pair: [Change; 4] = [
        (101, b"06"),
        (107, b"10000000"),
        (106, b"\xD2\xC4"),
        (108, b"1"),
    ];
    let output = report(&texts(&pair).messages(1));
    assert!(output.ends_with(b"\n106 \xD2\xC4\n107 10000000\n108 1\n109 0\n"));
}

#[test]
fn the_program_prints_refusals_9_and_10() {
    let ordinary = report(&texts(&[(15, b"")]).messages(1));
    assert_eq!(ordinary, (answers(15) + "end 9\n").as_bytes());
    let institution = texts(&[(17, b"03212643000000014800")]);
    let no_filling = report(&institution.without(&BLANKS).messages(1));
    assert_eq!(no_filling, (answers(15) + "end 10 1056\n").as_bytes());
}

#[test]
fn copying_gives_the_drafts_sheet() {
    let mut output = vec![0xEE; 390];
    assert_eq!(copy(&draft(&[]), &mut output), Ok(()));
    assert_eq!(output, sheet(&[]));
}

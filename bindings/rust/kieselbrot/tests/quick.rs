//! Quick completions on R-14's sentences: differences from the paper's sheet S, and how many
//! statuses are skipped.

use cases::{Texts, BLANKS};
use kieselbrot::{complete, quick, Date, Quickened, Record, Refusal, Terms};
use kieselbrot::{DRAFT_SIZE, SHEET_SIZE};

const INSTITUTION: &[u8] = b"03212643000000014800";

/// A field and its text.
type Change = (u8, &'static [u8]);

/// S with 22, 101 and 105 to 109 blank, and these texts.
fn open(changes: &[Change]) -> Texts {
    let change = |texts: Texts, &(field, text): &Change| texts.with(field, text);
    changes.iter().fold(Texts::s().without(&BLANKS), change)
}

/// The quick completion of a draft, with the answer and the sheet of [`complete`].
#[track_caller]
fn quick_of(draft: &[u8], size: usize, date: u32, record: Record) -> Quickened {
    let (mut sheet, mut slow) = (vec![0xEE; size], vec![0xEE; size]);
    let completed = complete(draft, &mut slow, Terms::new(Date(date), record));
    let quickened = quick(draft, &mut sheet, Terms::new(Date(date), record));
    assert_eq!(quickened.completed, completed);
    assert_eq!(sheet, slow);
    quickened
}

/// The count, with a sheet or without, and how many statuses are skipped.
type Answer = (Result<usize, Refusal>, usize);

#[track_caller]
fn answer(texts: &Texts, date: u32, record: Record) -> Answer {
    let draft = texts.draft(|text| u32::from(!text.is_empty()));
    let quickened = quick_of(&draft, SHEET_SIZE, date, record);
    let count = quickened.completed.map(|completed| completed.count);
    (count, quickened.skipped)
}

const fn none_of(count: usize) -> Result<usize, Refusal> {
    Err(Refusal::NoFilling { count })
}

#[test]
fn statuses_up_to_the_sheets_or_all() {
    let unnamed: &[Change] = &[(60, b"0"), (102, b"0")];
    let table: [(&[Change], u32, Answer); 7] = [
        (&[], 20240101, (Ok(1), 0)),
        // Rule 23 fails for 01; 03 is tried, and 02 has the sheet where it is allowed.
        (unnamed, 20240101, (Ok(97), 1)),
        (unnamed, 20231015, (Ok(49), 1)),
        // Rule 30 fails for 01, 03, 04 and 05.
        (&[(107, b"10000000")], 20240101, (Ok(193), 4)),
        // Rule 22 fails for all.
        (&[(17, INSTITUTION)], 20240101, (none_of(1_056), 22)),
        (&[(17, INSTITUTION)], 20230930, (none_of(1_008), 21)),
        // Rule 15 reads 106; rules 20, 21 and 30 fail for nine.
        (&[(106, b"000")], 20240101, (none_of(88), 9)),
    ];
    for (changes, date, expected) in table {
        let answer = answer(&open(changes), date, Record::GIVEN);
        assert_eq!(answer, expected, "{changes:?} at {date}");
    }
}

#[test]
fn all_of_the_list_in_force() {
    let hopeless = open(&[(17, INSTITUTION)]);
    let record = |first, last| Record {
        first32: Date(first),
        first33: Date(first),
        last02: Date(last),
    };
    let all = answer(&hopeless, 20240101, record(19000101, 20991231));
    assert_eq!(all, (none_of(1_104), 23));
    let fewest = answer(&hopeless, 20240101, record(20991231, 19000101));
    assert_eq!(fewest, (none_of(960), 20));
}

#[test]
fn a_given_status_is_the_only_one() {
    let table: [(&[Change], u32, Answer); 8] = [
        (&[(101, b"08")], 20240101, (Ok(1), 0)),
        (&[(101, b"02")], 20231231, (Ok(1), 0)),
        // Rules 10, 23 and 30.
        (&[(101, b"02")], 20240101, (none_of(48), 1)),
        (&[(101, b"17")], 20240101, (none_of(48), 1)),
        (&[(101, b"06")], 20240101, (none_of(48), 1)),
        // Rules 25, 29 and 31 read 108, 106 and 109.
        (&[(101, b"24"), (108, b"1")], 20240101, (none_of(24), 0)),
        (&[(101, b"01"), (106, b"00")], 20240101, (none_of(4), 0)),
        (&[(101, b"01"), (109, b"00")], 20240101, (none_of(24), 0)),
    ];
    for (changes, date, expected) in table {
        let answer = answer(&open(changes), date, Record::GIVEN);
        assert_eq!(answer, expected, "{changes:?} at {date}");
    }
}

#[test]
fn other_refusals_skip_none() {
    let draft = |changes| open(changes).draft(|_| 1).to_vec();
    let (field, rule) = (14, 1);
    let hopeless: &[Change] = &[(17, INSTITUTION)];
    let table = [
        (vec![0; DRAFT_SIZE - 1], 389, 0, Refusal::Malformed),
        (draft(hopeless), 389, 0, Refusal::Output),
        (draft(hopeless), 390, 20230924, Refusal::Undated),
        (draft(&[(14, b"")]), 390, 0, Refusal::Undated),
        (
            draft(&[(14, b"")]),
            390,
            20240101,
            Refusal::Broken { field, rule },
        ),
        (draft(&[(15, b"")]), 390, 20240101, Refusal::Ordinary),
    ];
    for (draft, size, date, refusal) in table {
        let quickened = quick_of(&draft, size, date, Record::GIVEN);
        let completed = Err(refusal);
        let skipped = 0;
        assert_eq!(quickened, Quickened { completed, skipped });
    }
}

//! The test ahead of completion on R-3's table: differences from the paper's sheet S, and what is named.

use cases::Texts;
use kieselbrot::{complete, pretest, Broken, Date, Refusal, Terms, DRAFT_SIZE, SHEET_SIZE};

const INSTITUTION: &[u8] = b"03212643000000014800";

/// A field and its text.
type Change = (u8, &'static [u8]);

/// The draft of S with these texts.
fn draft(changes: &[Change]) -> Vec<u8> {
    let change = |texts: Texts, &(field, text): &Change| texts.with(field, text);
    let texts = changes.iter().fold(Texts::s(), change);
    texts.draft(|text| u32::from(!text.is_empty())).to_vec()
}

fn completed(draft: &[u8]) -> Result<usize, Refusal> {
    let answer = complete(draft, &mut [0; SHEET_SIZE], Terms::given(Date(20240101)));
    answer.map(|completed| completed.count)
}

#[test]
fn none_is_named() {
    let blanks: Vec<Change> = [22, 101, 105, 106, 107, 108, 109]
        .map(|field| (field, &b""[..]))
        .to_vec();
    let tables: [&[Change]; 4] = [&[], &blanks, &[(101, b"99")], &[(108, b"14;12345678900")]];
    for changes in tables {
        assert_eq!(pretest(&draft(changes)), Ok(None), "{changes:?}");
    }
}

#[test]
fn a_rule_is_named_and_completion_answers_10() {
    let table: [(&[Change], u8, u8); 12] = [
        (&[(104, b"")], 104, 28),
        (&[(104, b"0")], 104, 28),
        (&[(17, INSTITUTION), (22, b"")], 22, 22),
        (&[(17, INSTITUTION), (22, b"0")], 22, 22),
        (&[(17, INSTITUTION), (22, b"0000")], 22, 7),
        (&[(61, b"")], 61, 6),
        (&[(61, b""), (103, b"")], 61, 6),
        (&[(103, b"")], 103, 6),
        (&[(103, b""), (101, b"")], 103, 6),
        (&[(17, b"03100810000000014800"), (61, b"")], 17, 5),
        (&[(60, b"7722222222")], 60, 8),
        (&[(107, b"1"), (104, b"0")], 107, 16),
    ];
    for (changes, field, rule) in table {
        let draft = draft(changes);
        assert_eq!(
            pretest(&draft),
            Ok(Some(Broken { field, rule })),
            "{changes:?}"
        );
        let refused = completed(&draft).unwrap_err();
        assert!(matches!(refused, Refusal::NoFilling { .. }), "{changes:?}");
    }
}

#[test]
fn it_refuses_as_completion_does() {
    let broken = Refusal::Broken { field: 14, rule: 1 };
    let table = [
        (draft(&[(14, b"1")]), broken),
        (vec![0; DRAFT_SIZE], broken),
        (draft(&[(15, b"")]), Refusal::Ordinary),
        (vec![0; DRAFT_SIZE - 1], Refusal::Malformed),
    ];
    for (draft, refusal) in table {
        assert_eq!(pretest(&draft), Err(refusal));
        assert_eq!(completed(&draft), Err(refusal));
    }
}

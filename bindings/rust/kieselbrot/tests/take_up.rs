//! Taking up part of a proposal, on document 01's sheet S with 22, 101 and 105 to 109
//! blank and "0" in 60 and 102, which is completed at count 97.

use cases::{advised, set_slot, CLIENT, DRAFT_SIZE, LENGTH_PLACE, PARTY_PLACE};
use cases::{message, slot_of, Draft, Sheet, Texts, BLANKS, FIELDS, FILLABLE};
use kieselbrot::words::not_taken_up;
use kieselbrot::{complete, post, take_up, Completed, Date, Posted, Refusal, Terms};

const BIT_15: u16 = 1 << 15;

fn open() -> Texts {
    Texts::s().without(&BLANKS).with(60, b"0").with(102, b"0")
}

/// Revision 1 where there is a text.
fn draft(texts: &Texts) -> Draft {
    texts.draft(|text| u32::from(!text.is_empty()))
}

fn completed(draft: &Draft) -> (Completed, Sheet) {
    let mut sheet = [0xEE; 390];
    let answer = complete(draft, &mut sheet, Terms::given(Date(20240101)));
    (answer.expect("it is completed"), sheet)
}

fn set_of(fields: &[u8]) -> u16 {
    let add = |set, &field: &u8| set | 1 << slot_of(field);
    fields.iter().fold(0, add)
}

/// The draft with this text and revision of the adviser's in a field's slot.
fn with(mut draft: Draft, field: u8, revision: u32, text: &[u8]) -> Draft {
    set_slot(&mut draft, field, revision, advised(revision), text);
    draft
}

fn text_of(sheet: &Sheet, field: u8) -> &[u8] {
    let slot = &sheet[26 * slot_of(field)..];
    &slot[1..][..usize::from(slot[0])]
}

/// The same sheet, a count no larger, and the set without what was taken up.
#[track_caller]
fn keeps_the_proposal(taken: &Draft, before: (Completed, Sheet), set: u16) -> usize {
    let (proposed, sheet) = before;
    let (after, same) = completed(taken);
    assert_eq!(same, sheet);
    assert!(after.count <= proposed.count);
    assert_eq!(after.set, proposed.set & !set);
    assert_eq!(after.ones, after.set.count_ones());
    after.count
}

#[test]
fn a_part_of_the_proposal() {
    let draft = draft(&open());
    let before = completed(&draft);
    let (proposed, sheet) = before;
    assert_eq!((proposed.count, proposed.set), (97, set_of(&BLANKS)));
    let table: [(&[u8], usize); 7] = [
        (&[101], 1),
        (&[106], 9),
        (&[108], 49),
        (&[106, 108, 109], 3),
        (&[22, 105, 107], 97),
        (&[], 97),
        (&BLANKS, 1),
    ];
    for (fields, count) in table {
        let mut taken = draft;
        assert_eq!(take_up(&mut taken, &sheet, set_of(fields)), Ok(()));
        let expected = fields.iter().fold(draft, |draft, &field| {
            with(draft, field, 1, text_of(&sheet, field))
        });
        assert_eq!(taken, expected, "{fields:?}");
        let after = keeps_the_proposal(&taken, before, set_of(fields));
        assert_eq!(after, count, "{fields:?}");
    }
}

#[test]
fn one_value_after_another() {
    let mut draft = draft(&open());
    let before = completed(&draft);
    let mut set = 0;
    for field in [109, 22, 101, 106, 108, 105, 107] {
        assert_eq!(take_up(&mut draft, &before.1, set_of(&[field])), Ok(()));
        set |= set_of(&[field]);
        keeps_the_proposal(&draft, before, set);
        // It is given now.
        let again = take_up(&mut draft, &before.1, set_of(&[field]));
        assert_eq!(again, Err(Refusal::NotTakenUp { field }));
    }
    assert_eq!(completed(&draft).0.set, 0);
}

/// R-9's own words: any revisions above those of the slots, in any order.
#[test]
fn values_posted_by_hand() {
    let draft = with(draft(&open()), 106, 7, b"");
    let before = completed(&draft);
    let mut taken = draft;
    for (field, revision) in [(106, 300), (101, u32::MAX), (22, 1)] {
        let message = message(field, revision, text_of(&before.1, field));
        assert_eq!(post(&mut taken, &message), Ok(Posted::Newer));
    }
    let count = keeps_the_proposal(&taken, before, set_of(&[22, 101, 106]));
    assert_eq!(count, 1);
}

#[test]
fn the_revision_after_its_slots() {
    for (had, revision) in [(0, 1), (1, 2), (255, 256), (u32::MAX - 1, u32::MAX)] {
        let blanked = with(draft(&open()), 101, had, b"");
        let before = completed(&blanked);
        let mut taken = blanked;
        assert_eq!(take_up(&mut taken, &before.1, set_of(&[101])), Ok(()));
        assert_eq!(taken, with(blanked, 101, revision, b"04"));
    }
}

/// A blank of the client's takes up a value as the adviser's.
#[test]
fn a_slot_that_the_client_blanked() {
    for (had, revision) in [(1, 2), (u32::MAX - 1, u32::MAX)] {
        let mut blanked = draft(&open());
        set_slot(&mut blanked, 101, had, CLIENT, b"");
        let before = completed(&blanked);
        let mut taken = blanked;
        assert_eq!(take_up(&mut taken, &before.1, set_of(&[101])), Ok(()));
        assert_eq!(taken, with(blanked, 101, revision, b"04"));
        keeps_the_proposal(&taken, before, set_of(&[101]));
    }
    let mut greatest = draft(&open());
    set_slot(&mut greatest, 101, u32::MAX, CLIENT, b"");
    let sheet = completed(&greatest).1;
    let refused = Err(Refusal::NotTakenUp { field: 101 });
    assert_eq!(take_up(&mut greatest, &sheet, set_of(&[101])), refused);
}

#[test]
fn all_fields_that_have_a_list() {
    let texts = Texts::s()
        .with(14, b"044525000")
        .with(15, b"")
        .with(17, b"40503810000004000000")
        .without(&FILLABLE);
    let mut draft = draft(&texts);
    let before = completed(&draft);
    assert_eq!(before.0.set, set_of(&FILLABLE));
    assert_eq!(take_up(&mut draft, &before.1, before.0.set), Ok(()));
    assert_eq!(keeps_the_proposal(&draft, before, before.0.set), 1);
}

/// Is refused with this, said in these words, and leaves the draft as it was.
#[track_caller]
fn refused(draft: &[u8], sheet: &[u8], set: u16, refusal: Refusal, words: &str) {
    let mut after = draft.to_vec();
    assert_eq!(take_up(&mut after, sheet, set), Err(refusal));
    assert_eq!(after, draft);
    assert_eq!(not_taken_up(draft, sheet, refusal), words);
}

const MALFORMED: &str =
    "The draft or the proposed sheet is malformed: it can't be read as an order.";

#[test]
fn malformed_ones() {
    let draft = draft(&open());
    let (proposed, sheet) = completed(&draft);
    let changed = |bytes: &[u8], place: usize, byte| {
        let mut bytes = bytes.to_vec();
        bytes[place] = byte;
        bytes
    };
    let refused = |draft: &[u8], sheet: &[u8]| {
        for set in [0, proposed.set, BIT_15] {
            refused(draft, sheet, set, Refusal::Malformed, MALFORMED);
        }
    };
    for size in [0, 390, DRAFT_SIZE - 1, DRAFT_SIZE + 1] {
        refused(&vec![0; size], &sheet);
        // The draft is tested first.
        refused(&vec![0; size], &sheet[1..]);
    }
    refused(&changed(&draft, LENGTH_PLACE, 26), &sheet);
    refused(&changed(&draft, DRAFT_SIZE - 1, 1), &sheet);
    // Revision 0 with a text and a party; a revision without a party, and of no known one.
    refused(&changed(&draft, 3, 0), &sheet);
    refused(&changed(&draft, PARTY_PLACE, 0), &sheet);
    refused(&changed(&draft, PARTY_PLACE, 3), &sheet);
    refused(&draft, &changed(&sheet, 0, 26));
    refused(&draft, &changed(&sheet, 389, 1));
}

#[test]
fn sheets_of_another_size() {
    let draft = draft(&open());
    let (proposed, sheet) = completed(&draft);
    for size in [0, 364, 389, 391, DRAFT_SIZE] {
        let mut other = sheet.to_vec();
        other.resize(size, 0xFF);
        for set in [0, proposed.set, BIT_15] {
            let words = "The proposed sheet must have 390 bytes.";
            refused(&draft, &other, set, Refusal::Output, words);
        }
    }
}

/// The words of a field, and why.
fn field_words(field: u8, why: &str) -> String {
    let name = kieselbrot::words::field(field).expect("a listed field");
    format!("Field {field} ({name}) can't take up a value: {why}.")
}

/// 20 with this field, alone and beside the whole proposal.
#[track_caller]
fn not_taken(draft: &Draft, sheet: &Sheet, field: u8, why: &str) {
    let bit = set_of(&[field]);
    for set in [bit, bit | BIT_15, bit | set_of(&BLANKS)] {
        let words = field_words(field, why);
        refused(draft, sheet, set, Refusal::NotTakenUp { field }, &words);
    }
}

#[test]
fn each_cause_of_20() {
    let draft = draft(&open());
    let (proposed, sheet) = completed(&draft);
    for set in [BIT_15, BIT_15 | proposed.set] {
        let words = "Bit 15 of the set is no field's.";
        refused(&draft, &sheet, set, Refusal::NotTakenUp { field: 0 }, words);
    }
    for field in FIELDS {
        let given = open().get(field);
        if !FILLABLE.contains(&field) {
            let why = "nothing is ever proposed for it";
            not_taken(&draft, &sheet, field, why);
            not_taken(&with(draft, field, 0, b""), &sheet, field, why);
        } else if !given.is_empty() {
            not_taken(&draft, &sheet, field, "it is given already");
        } else {
            let mut blank = sheet;
            blank[26 * slot_of(field)..][..26].fill(0);
            let why = "the proposed sheet has none for it";
            not_taken(&draft, &blank, field, why);
            let greatest = with(draft, field, u32::MAX, b"");
            let why = "its revision is the greatest, so that none can follow";
            not_taken(&greatest, &sheet, field, why);
        }
    }
}

#[test]
fn the_lowest_slot_is_named() {
    let draft = draft(&open());
    let (_, sheet) = completed(&draft);
    let named = |fields: &[u8]| {
        let mut after = draft;
        let answer = take_up(&mut after, &sheet, set_of(fields) | BIT_15);
        assert_eq!(after, draft);
        answer.expect_err("a refusal").numbers().to_string()
    };
    assert_eq!(named(&[]), "20 0");
    assert_eq!(named(&[22, 103]), "20 103");
    assert_eq!(named(&[102, 103]), "20 102");
    assert_eq!(named(&[60, 61, 102]), "20 60");
    assert_eq!(named(&FIELDS), "20 14");
}

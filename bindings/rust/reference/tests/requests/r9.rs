//! R-9: "For every completed draft, post any choice of the proposed values whose slots
//! are below the greatest revision, each with a revision above the one in its slot. At
//! the same date and record the draft must then complete to the very same sheet, and
//! its count must be no larger than before." And `take_up`, which posts such a choice.

use cases::{accepted, blanked, budget_at, damaged_sheet, disturb_at, filled_set};
use cases::{fillings_at, fit_dates, size_near, slot_of, Dates, Random, Sheet};
use cases::{Text, Texts, FIELDS, FILLABLE, LISTS};
use reference::{complete, copy, post, take_up, Completed, Date, Posted, Record, Refusal};
use reference::{DRAFT_SIZE, SLOT_SIZE};

use crate::fixture::{class_b, class_o, open, s, Order};
use crate::layout::{draft_of, message_1, message_2, slot};
use crate::layout::{Draft, ADVISER, CLIENT, LENGTH_PLACE, PARTY_PLACE};

/// A draft in which no field was ever given.
const FRESH: Draft = [0; DRAFT_SIZE];

/// The date and the record of these dates.
fn at(dates: Dates) -> (Date, Record) {
    let record = Record {
        first32: Date(dates.first32),
        first33: Date(dates.first33),
        last02: Date(dates.last02),
    };
    (Date(dates.order), record)
}

/// Completes at these dates.
fn completed(draft: &[u8], dates: Dates) -> Result<(Completed, Sheet), Refusal> {
    let mut sheet = [0xEE; 390];
    let (date, record) = at(dates);
    let answer = complete(draft, &mut sheet, date, record)?;
    Ok((answer, sheet))
}

/// Refusal 20.
const fn not_taken(field: u8) -> Refusal {
    Refusal::NotTakenUp { field }
}

/// The set of these fields' slots.
fn set_of(fields: &[u8]) -> u16 {
    fields
        .iter()
        .fold(0, |set, &field| set | 1 << slot_of(field))
}

/// The fields of a set, bit 15 left out.
fn fields_of(set: u16) -> impl Iterator<Item = u8> {
    (0..15)
        .filter(move |slot| set >> slot & 1 == 1)
        .map(|slot| FIELDS[slot])
}

/// A slot's revision, from the bytes of the draft.
fn revision_of(draft: &Draft, field: u8) -> u32 {
    let bytes = &draft[SLOT_SIZE * slot_of(field)..][..PARTY_PLACE];
    u32::from_be_bytes(bytes.try_into().unwrap())
}

/// A slot's text in a sheet, from its bytes.
fn text_of(sheet: &Sheet, field: u8) -> &[u8] {
    let slot = &sheet[26 * slot_of(field)..][..26];
    &slot[1..][..usize::from(slot[0])]
}

/// Some of the bits of a set.
fn part_of(random: &mut Random, set: u16) -> u16 {
    match random.below(8) {
        0 => set,
        1 => 0,
        2 => {
            let bits: Vec<u16> = (0..16)
                .map(|slot| 1 << slot)
                .filter(|bit| set & bit != 0)
                .collect();
            match bits[..] {
                [] => 0,
                _ => random.pick(&bits),
            }
        }
        _ => set & random.number() as u16,
    }
}

/// A revision for a text: that of a blank may be 0, that of either the greatest.
fn some_revision(random: &mut Random, text: Text) -> u32 {
    let any = random.number() as u32;
    let revision = random.pick(&[0, 0, 0, 1, 2, 255, 1 << 24, any, u32::MAX - 1, u32::MAX]);
    revision.max(u32::from(!text.is_empty()))
}

/// A draft of these texts with revisions and parties at random.
fn some_draft(random: &mut Random, order: &Texts) -> Draft {
    let mut draft = draft_of(order, |text| some_revision(random, text));
    for slot in draft.chunks_mut(SLOT_SIZE) {
        if slot[PARTY_PLACE] != 0 && random.percent(50) {
            slot[PARTY_PLACE] = CLIENT;
        }
    }
    draft
}

/// The draft with one slot damaged, which may leave it well-formed.
fn damaged_draft(random: &mut Random, mut draft: Draft) -> Draft {
    let start = SLOT_SIZE * random.below(FIELDS.len());
    let slot = &mut draft[start..][..SLOT_SIZE];
    match random.below(5) {
        0 => slot[LENGTH_PLACE] = random.byte(),
        1 => slot[SLOT_SIZE - 1] = random.byte(),
        2 => slot[PARTY_PLACE] = random.pick(&[0, CLIENT, ADVISER, 3, 255]),
        3 => slot[..PARTY_PLACE].fill(0),
        _ => slot[random.below(SLOT_SIZE)] = random.byte(),
    }
    draft
}

/// A party, a field, a revision and a text.
type Given<'a> = (u8, u8, u32, &'a [u8]);

/// The draft with these slots' bytes laid out anew: the text, this revision and party.
fn laid_out(draft: &Draft, messages: &[Given<'_>]) -> Draft {
    let mut after = *draft;
    for (party, field, revision, text) in messages {
        let bytes = slot(*revision, *party, Text::new(text));
        after[SLOT_SIZE * slot_of(*field)..][..SLOT_SIZE].copy_from_slice(&bytes);
    }
    after
}

/// The slots of the set whose revision is below the greatest.
fn below_the_greatest(draft: &Draft, set: u16) -> u16 {
    let below = fields_of(set).filter(|&field| revision_of(draft, field) < u32::MAX);
    set_of(&below.collect::<Vec<_>>())
}

/// "The very same sheet", a count "no larger than before", and the set without exactly
/// what was taken up.
#[track_caller]
fn keeps_the_proposal(draft: &Draft, before: (Completed, Sheet), taken: u16, dates: Dates) {
    let (completed, sheet) = before;
    let (after, same) = self::completed(draft, dates).unwrap();
    assert_eq!(same, sheet);
    assert!(after.count <= completed.count, "{after:?} {completed:?}");
    assert_eq!(after.set, completed.set & !taken);
    assert_eq!(after.ones, completed.ones - taken.count_ones());
}

/// Posts the proposed values of these slots by hand, as either party's, with revisions
/// at random above the slots', in any order.
fn post_by_hand(random: &mut Random, draft: &Draft, sheet: &Sheet, taken: u16) -> Draft {
    let above = |random: &mut Random, revision: u32| {
        let room = u32::MAX - revision;
        let more = 1 + random.below(room as usize) as u32;
        revision + random.pick(&[1, room, more])
    };
    let mut messages: Vec<Given<'_>> = fields_of(taken)
        .map(|field| {
            let revision = above(random, revision_of(draft, field));
            let party = random.pick(&[CLIENT, ADVISER]);
            (party, field, revision, text_of(sheet, field))
        })
        .collect();
    random.shuffle(&mut messages);
    let mut posted = *draft;
    for &(party, field, revision, text) in &messages {
        let message = match party == ADVISER && random.percent(50) {
            true => message_1(field, revision, text),
            false => message_2(party, field, revision, text),
        };
        assert_eq!(post(&mut posted, &message), Ok(Posted::Newer));
    }
    assert_eq!(posted, laid_out(draft, &messages));
    posted
}

/// Takes up these slots, which can be: each gets the revision after its own, and is
/// the adviser's.
#[track_caller]
fn taken_up(draft: &Draft, sheet: &Sheet, taken: u16) -> Draft {
    let mut after = *draft;
    assert_eq!(take_up(&mut after, sheet, taken), Ok(()));
    let messages: Vec<Given<'_>> = fields_of(taken)
        .map(|field| {
            let revision = revision_of(draft, field) + 1;
            (ADVISER, field, revision, text_of(sheet, field))
        })
        .collect();
    assert_eq!(after, laid_out(draft, &messages));
    after
}

/// Takes up the slots one by one, in any order.
fn one_by_one(random: &mut Random, draft: &Draft, sheet: &Sheet, taken: u16) -> Draft {
    let mut fields: Vec<u8> = fields_of(taken).collect();
    random.shuffle(&mut fields);
    let take = |draft: Draft, field: &u8| taken_up(&draft, sheet, set_of(&[*field]));
    fields.iter().fold(*draft, take)
}

/// The dates of one of the eight lists, or any that error 12 does not refuse.
fn some_dates(random: &mut Random) -> Dates {
    // Days that have one before and one after them.
    let order = random.pick(&[20230925, 20231001, 20231015, 20240101, 20240229, 20991230]);
    let list = random.pick(&LISTS);
    match random.percent(70) {
        true => Dates::given(order).allowing(list),
        false => fit_dates(random),
    }
}

/// Some order: near an accepted one of these dates, with blanks; or one of the paper's.
fn some_order(random: &mut Random, dates: Dates) -> Texts {
    let order = match random.below(10) {
        0 => class_b(),
        1 => s(&[]),
        2 => s(&[(60, "0"), (102, "0")]),
        _ => budget_at(random, dates),
    };
    let mut order = blanked(order, random.below(1024));
    if random.percent(15) {
        disturb_at(random, &mut order, dates);
    }
    order
}

/// The property, with messages posted by hand and with `take_up`.
#[test]
fn the_proposal_stands() {
    let random = &mut Random::new(9);
    let (mut lists, mut fewer, mut greatest, mut parts) = ([0; 8], 0, 0, 0);
    for _ in 0..20_000 {
        let dates = some_dates(random);
        let order = some_order(random, dates);
        let draft = some_draft(random, &order);
        let Ok(before) = completed(&draft, dates) else {
            continue;
        };
        let (Completed { set, count, .. }, sheet) = before;
        assert_eq!(set, filled_set(&order));
        let open = below_the_greatest(&draft, set);
        for _ in 0..3 {
            let taken = part_of(random, open);
            let by_hand = post_by_hand(random, &draft, &sheet, taken);
            keeps_the_proposal(&by_hand, before, taken, dates);
            let at_once = taken_up(&draft, &sheet, taken);
            keeps_the_proposal(&at_once, before, taken, dates);
            assert_eq!(one_by_one(random, &draft, &sheet, taken), at_once);
            let (after, _) = completed(&at_once, dates).unwrap();
            assert_eq!(completed(&by_hand, dates).unwrap().0, after);
            fewer += u32::from(after.count < count);
            parts += u32::from(taken != 0 && taken != set);
        }
        greatest += u32::from(open != set);
        let allowed = dates.allowed();
        lists[LISTS.iter().position(|&list| list == allowed).unwrap()] += 1;
    }
    assert!(lists.iter().all(|&times| times > 500), "{lists:?}");
    let times = [fewer, greatest, parts];
    assert!(times.iter().all(|&times| times > 1000), "{times:?}");
}

/// The count after taking up is the sheet's place among the fillings that are left.
#[test]
fn the_count_is_the_place_among_those_left() {
    let random = &mut Random::new(99);
    let mut times = 0;
    for _ in 0..2000 {
        let dates = some_dates(random);
        let order = some_order(random, dates);
        let draft = draft_of(&order, |text| u32::from(!text.is_empty()));
        let Ok((before, sheet)) = completed(&draft, dates) else {
            continue;
        };
        let taken = part_of(random, before.set);
        let left = fields_of(taken).fold(order, |left, field| {
            left.with(field, text_of(&sheet, field))
        });
        let place = |given: &Texts| {
            let fillings = fillings_at(given, dates);
            let same = fillings.iter().position(|filling| filling.sheet() == sheet);
            same.unwrap() as u32 + 1
        };
        assert_eq!(place(&order), before.count, "{}", order.shown());
        let (after, _) = completed(&taken_up(&draft, &sheet, taken), dates).unwrap();
        assert_eq!(place(&left), after.count, "{}", order.shown());
        times += 1;
    }
    assert!(times > 500, "{times}");
}

/// The paper's example of count 97: S with 22, 101, 105 to 109 blank, 60 and 102 "0".
fn unnamed() -> (Draft, Completed, Sheet) {
    let order = open(&[(60, "0"), (102, "0")]);
    let draft = draft_of(&order, |text| u32::from(!text.is_empty()));
    let (before, sheet) = completed(&draft, Dates::PROGRAM).unwrap();
    let filling = s(&[(60, "0"), (102, "0"), (101, "04")]);
    assert_eq!(sheet, filling.sheet());
    (draft, before, sheet)
}

#[test]
fn counts_of_the_example() {
    let (draft, before, sheet) = unnamed();
    assert_eq!(before.count, 97);
    let rows: [(&[u8], u32); 7] = [
        (&[101], 1),
        (&[106], 9),
        (&[108], 49),
        (&[109], 49),
        (&[106, 108, 109], 3),
        (&[22, 105, 107], 97),
        (&[], 97),
    ];
    for (fields, count) in rows {
        let taken = set_of(fields);
        let after = taken_up(&draft, &sheet, taken);
        keeps_the_proposal(&after, (before, sheet), taken, Dates::PROGRAM);
        let mut posted = draft;
        for &field in fields {
            let message = message_1(field, 7, text_of(&sheet, field));
            assert_eq!(post(&mut posted, &message), Ok(Posted::Newer));
        }
        for draft in [after, posted] {
            let (after, same) = completed(&draft, Dates::PROGRAM).unwrap();
            assert_eq!((after.count, same), (count, sheet), "{fields:?}");
        }
    }
}

/// Every part of the example's proposal: two statuses come before 04.
#[test]
fn every_part_of_the_example() {
    let (draft, before, sheet) = unnamed();
    for taken in (0..1 << 15).filter(|taken| taken & !before.set == 0) {
        let after = taken_up(&draft, &sheet, taken);
        keeps_the_proposal(&after, (before, sheet), taken, Dates::PROGRAM);
        let entries = |field, open| match taken & set_of(&[field]) {
            0 => open,
            _ => 1,
        };
        let ahead = entries(101, 3) - 1;
        let of_status = entries(106, 12) * entries(108, 2) * entries(109, 2);
        let (after, _) = completed(&after, Dates::PROGRAM).unwrap();
        assert_eq!(after.count, ahead * of_status + 1, "{taken:b}");
    }
}

/// A completed draft with the whole set taken up is the sheet's own draft, with one
/// filling.
#[test]
fn the_whole_set() {
    let (draft, before, sheet) = unnamed();
    let after = taken_up(&draft, &sheet, before.set);
    let mut copied = [0; 390];
    assert_eq!(copy(&after, &mut copied), Ok(()));
    assert_eq!(copied, sheet);
    let (completed, _) = completed(&after, Dates::PROGRAM).unwrap();
    let (count, set, ones) = (1, 0, 0);
    assert_eq!(completed, Completed { count, set, ones });
}

/// Is refused, and leaves the draft as it was.
#[track_caller]
fn refuses(draft: &[u8], sheet: &[u8], set: u16, refusal: Refusal) {
    let mut after = draft.to_vec();
    assert_eq!(take_up(&mut after, sheet, set), Err(refusal));
    assert_eq!(after, draft);
}

#[test]
fn the_number_and_what_it_returns() {
    assert_eq!(not_taken(101).number(), 20);
    assert_eq!(not_taken(101).to_string(), "20 101");
    assert_eq!(not_taken(0).to_string(), "20 0");
}

/// 1: a malformed draft, or a malformed sheet of 390 bytes, wherever it is.
#[test]
fn refusal_1() {
    let (draft, before, sheet) = unnamed();
    for size in [0, 390, DRAFT_SIZE - 1, DRAFT_SIZE + 1] {
        for set in [0, before.set, 1 << 15] {
            refuses(&vec![0; size], &sheet, set, Refusal::Malformed);
        }
    }
    let slots = |size: usize, first: usize| (first..15 * size).step_by(size);
    // Of each slot the length, and the last byte of the padding.
    let damages = |size: usize| {
        let lengths = slots(size, size - 26).map(|place| (place, 26));
        lengths.chain(slots(size, size - 1).map(|place| (place, 1)))
    };
    for (place, byte) in damages(SLOT_SIZE) {
        let mut damaged = draft;
        damaged[place] = byte;
        refuses(&damaged, &sheet, 0, Refusal::Malformed);
        refuses(&damaged, &sheet, before.set, Refusal::Malformed);
    }
    for (place, byte) in damages(26) {
        let mut damaged = sheet;
        damaged[place] = byte;
        refuses(&draft, &damaged, 0, Refusal::Malformed);
        refuses(&draft, &damaged, before.set, Refusal::Malformed);
    }
    // Revision 0 with a text.
    let unrevised = draft_of(&s(&[]), |_| 0);
    refuses(&unrevised, &sheet, 0, Refusal::Malformed);
    // A party that does not fit its revision.
    for (revision, party) in [(0, CLIENT), (0, ADVISER), (1, 0), (1, 3)] {
        for field in FIELDS {
            let damaged = laid_out(&draft, &[(party, field, revision, b"")]);
            refuses(&damaged, &sheet, 0, Refusal::Malformed);
            refuses(&damaged, &sheet, before.set, Refusal::Malformed);
        }
    }
}

/// 7: a sheet of another size, though the set be empty.
#[test]
fn refusal_7() {
    let (draft, before, sheet) = unnamed();
    for size in [0, 26, 364, 389, 391, 416, DRAFT_SIZE] {
        let mut other = sheet.to_vec();
        other.resize(size, 0);
        for set in [0, before.set, 1 << 15] {
            refuses(&draft, &other, set, Refusal::Output);
        }
        // Its bytes are not looked at.
        refuses(&draft, &vec![0xFF; size], before.set, Refusal::Output);
    }
}

/// 20, each of the five causes by itself.
#[test]
fn refusal_20() {
    let (draft, before, sheet) = unnamed();
    // Bit 15 is no slot's.
    refuses(&draft, &sheet, 1 << 15, not_taken(0));
    refuses(&draft, &sheet, before.set | 1 << 15, not_taken(0));
    // The field has no list, whether blank in the draft or not.
    for field in [14, 15, 17, 61, 103] {
        let set = set_of(&[field]);
        refuses(&draft, &sheet, set, not_taken(field));
        refuses(&FRESH, &sheet, set, not_taken(field));
        refuses(&FRESH, &sheet, before.set | set, not_taken(field));
    }
    for field in FILLABLE {
        let set = set_of(&[field]);
        // It is not blank in the draft, even with the text that is proposed.
        for given in [s(&[]), open(&[(60, "0"), (102, "0"), (field, "7")])] {
            let draft = draft_of(&given, |_| 1);
            refuses(&draft, &sheet, set, not_taken(field));
            refuses(&draft, &given.sheet(), set, not_taken(field));
        }
        // Nothing is proposed.
        let blank = s(&[]).without(&[field]);
        refuses(&FRESH, &blank.sheet(), set, not_taken(field));
        // The revision is the greatest, whichever party gave it.
        for party in [CLIENT, ADVISER] {
            let last = laid_out(&FRESH, &[(party, field, u32::MAX, b"")]);
            refuses(&last, &sheet, set, not_taken(field));
            let last_but_one = laid_out(&FRESH, &[(party, field, u32::MAX - 1, b"")]);
            let after = taken_up(&last_but_one, &sheet, set);
            assert_eq!(revision_of(&after, field), u32::MAX);
        }
    }
}

/// The field named is that of the lowest slot that can't be taken up, whatever the
/// cause, and the slots below it are not taken up either.
#[test]
fn the_lowest_slot_is_named() {
    let sheet = s(&[]).without(&[106]).sheet();
    let given: [Given<'_>; 3] = [
        (ADVISER, 60, 1, b"0"),
        (ADVISER, 105, u32::MAX, b""),
        (CLIENT, 108, 1, b"5"),
    ];
    let draft = laid_out(&FRESH, &given);
    let all = [22, 60, 61, 101, 105, 106, 108];
    let bad = [60, 61, 105, 106, 108];
    for (number, field) in bad.into_iter().enumerate() {
        let left: Vec<u8> = all
            .into_iter()
            .filter(|field| !bad[..number].contains(field))
            .collect();
        for bit_15 in [0, 1 << 15] {
            refuses(&draft, &sheet, set_of(&left) | bit_15, not_taken(field));
        }
    }
    refuses(&draft, &sheet, set_of(&[22, 101]) | 1 << 15, not_taken(0));
    taken_up(&draft, &sheet, set_of(&[22, 101]));
    refuses(&draft, &sheet, u16::MAX, not_taken(14));
}

/// 1, then 7, then 20.
#[test]
fn the_order_of_refusals() {
    let (draft, _, sheet) = unnamed();
    let malformed_sheet = [0xFF; 390];
    for set in [1 << 15, u16::MAX] {
        refuses(&[0; DRAFT_SIZE - 1], &sheet[..389], set, Refusal::Malformed);
        refuses(
            &[0; DRAFT_SIZE - 1],
            &malformed_sheet,
            set,
            Refusal::Malformed,
        );
        refuses(&draft, &malformed_sheet, set, Refusal::Malformed);
        refuses(&draft, &[0xFF; 389], set, Refusal::Output);
    }
}

/// What is taken up is given, so it can't be taken up again.
#[test]
fn taking_up_twice() {
    let (draft, before, sheet) = unnamed();
    let after = taken_up(&draft, &sheet, set_of(&[105, 106]));
    refuses(&after, &sheet, set_of(&[105]), not_taken(105));
    refuses(&after, &sheet, before.set, not_taken(105));
    taken_up(&after, &sheet, before.set & !set_of(&[105, 106]));
}

/// An empty set changes nothing, whatever draft and sheet.
#[test]
fn the_empty_set() {
    let sheets = [s(&[]), class_o(), Texts::BLANK, open(&[])];
    for order in [s(&[]), open(&[]), class_b(), class_o(), Texts::BLANK] {
        for draft in [draft_of(&order, |_| 1), draft_of(&order, |_| u32::MAX)] {
            for sheet in sheets {
                assert_eq!(taken_up(&draft, &sheet.sheet(), 0), draft);
            }
        }
    }
    assert_eq!(taken_up(&FRESH, &[0; 390], 0), FRESH);
}

/// The sheet need not be one that completion made, nor the draft one that completes;
/// what stands in slots outside the set does not matter.
#[test]
fn any_sheet() {
    let random = &mut Random::new(90);
    let mut sheet = Texts::BLANK;
    for field in FIELDS {
        let text: Vec<u8> = (0..=random.below(25)).map(|_| random.byte()).collect();
        sheet.set(field, Text::new(&text));
    }
    for field in FILLABLE {
        let set = set_of(&[field]);
        let alone = Texts::BLANK.with(field, &sheet.get(field));
        let longest = alone.with(field, &[0xFF; 25]);
        for draft in [
            FRESH,
            draft_of(&class_o().without(&[field]), |_| 3),
            draft_of(&open(&[(14, "0"), (field, "")]), |_| 3),
        ] {
            let after = taken_up(&draft, &sheet.sheet(), set);
            assert_eq!(taken_up(&draft, &alone.sheet(), set), after);
            taken_up(&draft, &longest.sheet(), set);
        }
    }
}

/// Why a slot of the set can't be taken up: its field, as said of refusal 20.
fn first_not_taken(order: &Texts, draft: &Draft, proposed: &Texts, set: u16) -> Option<u8> {
    let bad = |&field: &u8| {
        !FILLABLE.contains(&field)
            || !order.get(field).is_empty()
            || proposed.get(field).is_empty()
            || revision_of(draft, field) == u32::MAX
    };
    fields_of(set).find(bad).or((set >> 15 == 1).then_some(0))
}

/// Some drafts, sheets and sets against the whole of what is said of `take_up`.
#[test]
fn some_drafts_sheets_and_sets() {
    let random = &mut Random::new(900);
    let mut times = [0; 21];
    for _ in 0..60_000 {
        let dates = fit_dates(random);
        let order = blanked(accepted(random), random.below(1024));
        let mut proposed = accepted(random);
        if random.percent(20) {
            proposed = blanked(proposed, random.below(1024));
        }
        disturb_at(random, &mut proposed, dates);
        let draft = some_draft(random, &order);
        let open = below_the_greatest(&draft, filled_set(&order));
        let more = random.number() as u16 & random.number() as u16;
        let set = random.pick(&[open, open, open & more, open | more, more]);
        let sheet = proposed.sheet();
        let long = FIELDS.iter().any(|&field| proposed.get(field).len() > 25);
        let refusal = match first_not_taken(&order, &draft, &proposed, set) {
            _ if long => Some(Refusal::Malformed),
            Some(field) => Some(not_taken(field)),
            None => None,
        };
        match refusal {
            Some(refusal) => refuses(&draft, &sheet, set, refusal),
            None => {
                taken_up(&draft, &sheet, set);
            }
        }
        times[refusal.map_or(0, |refusal| usize::from(refusal.number()))] += 1;
    }
    for (number, least) in [(0, 5000), (1, 10), (20, 5000)] {
        assert!(times[number] > least, "{times:?}");
    }
}

/// Damaged drafts and sheets and other sizes, against what copying says of them.
#[test]
fn some_damaged_drafts_and_sheets() {
    let random = &mut Random::new(9000);
    let mut times = [0; 21];
    for _ in 0..20_000 {
        let order = blanked(accepted(random), random.below(1024));
        let mut draft = some_draft(random, &order);
        if random.percent(30) {
            draft = damaged_draft(random, draft);
        }
        let mut sheet = accepted(random).sheet();
        if random.percent(30) {
            sheet = damaged_sheet(random, sheet);
        }
        let mut sheet = sheet.to_vec();
        if random.percent(30) {
            sheet.resize(size_near(random, 390), 0);
        }
        let set = random.number() as u16;
        let well_formed = |draft: &[u8]| copy(draft, &mut [0; 390]).is_ok();
        // A draft of the sheet's slots, each with a revision.
        let revised: Vec<u8> = sheet
            .chunks(26)
            .flat_map(|slot| [&[0, 0, 0, 1, ADVISER], slot].concat())
            .collect();
        let refusal = match sheet.len() {
            _ if !well_formed(&draft) => Some(Refusal::Malformed),
            390 if !well_formed(&revised) => Some(Refusal::Malformed),
            390 => None,
            _ => Some(Refusal::Output),
        };
        let mut after = draft;
        let answer = take_up(&mut after, &sheet, set);
        match (refusal, answer) {
            (Some(refusal), _) => assert_eq!(answer, Err(refusal)),
            (None, Err(Refusal::NotTakenUp { .. })) => {}
            (None, _) => assert_eq!(answer, Ok(())),
        }
        if answer.is_err() {
            assert_eq!(after, draft);
        }
        times[answer.map_or_else(|refusal| usize::from(refusal.number()), |()| 0)] += 1;
    }
    for number in [1, 7, 20] {
        assert!(times[number] > 1000, "{times:?}");
    }
}

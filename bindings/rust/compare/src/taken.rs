//! What taking up part of a proposal reached.

use std::fmt;

use cases::{slot_of, DRAFT_SLOT_SIZE, FIELDS, FILLABLE, LENGTH_PLACE, LISTS};
use kieselbrot::Refusal;

use crate::dates::{shown, List};
use crate::library::{Library, Reference};

/// What was reached.
#[derive(Clone, Copy, Debug, PartialEq, Eq, PartialOrd, Ord)]
pub enum Taken {
    /// So many values are taken up.
    Values(u32),
    /// A value gets the greatest revision.
    ToTheGreatest,
    /// Refused with 1 for this.
    Malformed(Malformed),
    /// Refused with 20 for bit 15.
    Bit15,
    /// Refused with 20 for this field and this alone.
    Unfit(u8, Cause),
    /// Refused with 20 where a lower slot of the set could take up its value.
    BehindAFitOne,
    /// Refused with 20 where a higher slot of the set can't take up its value, either.
    AheadOfAnother,
    /// Some of a proposal is taken up at dates with this list, and completed again.
    Again(Way, List),
    /// The count is then smaller, or as it was.
    Count(Way, Count),
}

/// What is malformed.
#[derive(Clone, Copy, Debug, PartialEq, Eq, PartialOrd, Ord)]
pub enum Malformed {
    /// The draft, with a sheet to take up from.
    Draft,
    /// The draft, with a sheet of another size.
    DraftAheadOf7,
    /// The sheet.
    Sheet,
    /// The sheet, with a set that 20 refuses.
    SheetAheadOf20,
}

const MALFORMED: [Malformed; 4] = [
    Malformed::Draft,
    Malformed::DraftAheadOf7,
    Malformed::Sheet,
    Malformed::SheetAheadOf20,
];

/// What keeps a slot from taking up its value.
#[derive(Clone, Copy, Debug, PartialEq, Eq, PartialOrd, Ord)]
pub enum Cause {
    /// Its field has no list.
    NoList,
    /// It is not blank in the draft.
    Given,
    /// The sheet is blank there.
    NotProposed,
    /// Its revision is the greatest.
    Greatest,
}

/// How the values of a proposal were posted.
#[derive(Clone, Copy, Debug, PartialEq, Eq, PartialOrd, Ord)]
pub enum Way {
    /// Taken up.
    TakenUp,
    /// Posted by hand, in any order.
    ByHand,
}

const WAYS: [Way; 2] = [Way::TakenUp, Way::ByHand];

/// What became of the count.
#[derive(Clone, Copy, Debug, PartialEq, Eq, PartialOrd, Ord)]
pub enum Count {
    /// It is smaller.
    Smaller,
    /// It is as it was.
    Same,
}

/// All that must be reached.
pub fn all() -> impl Iterator<Item = Taken> {
    let unfit = FIELDS.into_iter().flat_map(|field| {
        let causes: &[Cause] = match FILLABLE.contains(&field) {
            true => &[Cause::Given, Cause::NotProposed, Cause::Greatest],
            false => &[Cause::NoList],
        };
        causes.iter().map(move |&cause| Taken::Unfit(field, cause))
    });
    let again = WAYS.into_iter().flat_map(|way| {
        let counts = [Count::Smaller, Count::Same].map(|count| Taken::Count(way, count));
        LISTS
            .map(|list| Taken::Again(way, list))
            .into_iter()
            .chain(counts)
    });
    (0..=10)
        .map(Taken::Values)
        .chain([Taken::ToTheGreatest, Taken::Bit15])
        .chain([Taken::BehindAFitOne, Taken::AheadOfAnother])
        .chain(MALFORMED.map(Taken::Malformed))
        .chain(unfit)
        .chain(again)
}

impl fmt::Display for Taken {
    fn fmt(&self, f: &mut fmt::Formatter<'_>) -> fmt::Result {
        match self {
            Self::Values(count) => write!(f, "{count} values"),
            Self::ToTheGreatest => write!(f, "to the greatest revision"),
            Self::Malformed(what) => write!(f, "1, {what:?}"),
            Self::Bit15 => write!(f, "20, bit 15"),
            Self::Unfit(field, cause) => write!(f, "20 of {field}, {cause:?}"),
            Self::BehindAFitOne => write!(f, "20 behind one that is fit"),
            Self::AheadOfAnother => write!(f, "20 ahead of another"),
            Self::Again(way, list) => write!(f, "{way:?} of {}", shown(*list)),
            Self::Count(way, count) => write!(f, "{way:?}, count {count:?}"),
        }
    }
}

/// The slots of a set, lowest first; 15 is none's.
pub fn slots(set: u16) -> impl Iterator<Item = usize> {
    (0..16).filter(move |slot| set >> slot & 1 == 1)
}

/// The revision in a slot of a draft.
pub fn revision_in(draft: &[u8], slot: usize) -> u32 {
    let bytes = &draft[DRAFT_SLOT_SIZE * slot..];
    u32::from_be_bytes([bytes[0], bytes[1], bytes[2], bytes[3]])
}

/// The text in a slot of a well-formed sheet.
pub fn text_in(sheet: &[u8], slot: usize) -> &[u8] {
    let slot = &sheet[26 * slot..];
    &slot[1..][..usize::from(slot[0])]
}

/// All that keeps a slot from taking up its value, of a well-formed draft and sheet.
fn causes(draft: &[u8], sheet: &[u8], slot: usize) -> Vec<Cause> {
    let causes = [
        (Cause::NoList, !FILLABLE.contains(&FIELDS[slot])),
        (
            Cause::Given,
            draft[DRAFT_SLOT_SIZE * slot + LENGTH_PLACE] != 0,
        ),
        (Cause::NotProposed, sheet[26 * slot] == 0),
        (Cause::Greatest, revision_in(draft, slot) == u32::MAX),
    ];
    let there = causes.into_iter().filter(|&(_, there)| there);
    there.map(|(cause, _)| cause).collect()
}

/// Whether a slot of a set, or bit 15, can't be taken up.
fn unfit(draft: &[u8], sheet: &[u8], slot: usize) -> bool {
    slot == FIELDS.len() || !causes(draft, sheet, slot).is_empty()
}

/// What a call reached, by the draft before it.
pub fn reached(draft: &[u8], sheet: &[u8], set: u16, answer: Result<(), Refusal>) -> Vec<Taken> {
    match answer {
        Ok(()) => {
            let greatest = slots(set).any(|slot| revision_in(draft, slot) == u32::MAX - 1);
            let values = Taken::Values(set.count_ones());
            let greatest = greatest.then_some(Taken::ToTheGreatest);
            [values].into_iter().chain(greatest).collect()
        }
        Err(Refusal::Malformed) => malformed(draft, sheet, set)
            .map(Taken::Malformed)
            .into_iter()
            .collect(),
        Err(Refusal::NotTakenUp { field }) => not_taken(draft, sheet, set, field),
        Err(_) => vec![],
    }
}

fn malformed(draft: &[u8], sheet: &[u8], set: u16) -> Option<Malformed> {
    let formed = Reference.copy(draft, &mut [0; 390]).is_ok();
    let of_size = sheet.len() == 390;
    // The lengths alone are not above 25.
    let proposed = of_size && sheet.chunks_exact(26).all(|slot| slot[0] <= 25);
    match (formed, of_size) {
        (false, true) => Some(Malformed::Draft),
        (false, false) => Some(Malformed::DraftAheadOf7),
        (true, true) if proposed && slots(set).any(|slot| unfit(draft, sheet, slot)) => {
            Some(Malformed::SheetAheadOf20)
        }
        (true, true) => Some(Malformed::Sheet),
        (true, false) => None,
    }
}

fn not_taken(draft: &[u8], sheet: &[u8], set: u16, field: u8) -> Vec<Taken> {
    let (named, mut reached) = match field {
        0 => (FIELDS.len(), vec![Taken::Bit15]),
        field => {
            let slot = slot_of(field);
            let alone = match causes(draft, sheet, slot)[..] {
                [cause] => Some(Taken::Unfit(field, cause)),
                // What has no list is mostly given, too.
                _ => None,
            };
            (slot, alone.into_iter().collect())
        }
    };
    if slots(set).any(|slot| slot < named) {
        reached.push(Taken::BehindAFitOne);
    }
    if slots(set).any(|slot| slot > named && unfit(draft, sheet, slot)) {
        reached.push(Taken::AheadOfAnother);
    }
    reached
}

#[cfg(test)]
mod tests {
    use super::*;
    use cases::{Texts, BLANKS, DRAFT_SIZE};

    /// What a call of the second implementation reaches.
    fn take_up(draft: &[u8], sheet: &[u8], set: u16) -> Vec<Taken> {
        let answer = Reference.take_up(&mut draft.to_vec(), sheet, set);
        reached(draft, sheet, set, answer)
    }

    fn bit(field: u8) -> u16 {
        1 << slot_of(field)
    }

    #[test]
    fn values_and_revisions() {
        let open = Texts::s().without(&BLANKS);
        let sheet = Texts::s().sheet();
        let draft = open.draft(|text| match text.is_empty() {
            true => u32::MAX - 1,
            false => 1,
        });
        assert_eq!(take_up(&draft, &sheet, 0), [Taken::Values(0)]);
        let all = BLANKS.into_iter().map(bit).sum();
        let expected = [Taken::Values(7), Taken::ToTheGreatest];
        assert_eq!(take_up(&draft, &sheet, all), expected);
    }

    #[test]
    fn a_cause_by_itself() {
        let open = Texts::s().without(&BLANKS);
        let sheet = Texts::s().sheet();
        let draft = open.draft(|text| u32::from(!text.is_empty()));
        assert_eq!(take_up(&draft, &sheet, 1 << 15), [Taken::Bit15]);
        let given = Taken::Unfit(60, Cause::Given);
        let set = bit(22) | bit(60) | bit(102);
        let expected = [given, Taken::BehindAFitOne, Taken::AheadOfAnother];
        assert_eq!(take_up(&draft, &sheet, set), expected);
        // Given, and without a list.
        assert_eq!(take_up(&draft, &sheet, bit(61)), []);
        let listless = Taken::Unfit(61, Cause::NoList);
        assert_eq!(take_up(&[0; DRAFT_SIZE], &sheet, bit(61)), [listless]);
        let blank = open.sheet();
        let none = Taken::Unfit(101, Cause::NotProposed);
        assert_eq!(take_up(&draft, &blank, bit(101)), [none]);
        let greatest = open.draft(|_| u32::MAX);
        let last = Taken::Unfit(101, Cause::Greatest);
        assert_eq!(take_up(&greatest, &sheet, bit(101)), [last]);
        assert_eq!(take_up(&greatest, &blank, bit(101)), []);
    }

    #[test]
    fn malformed_ones() {
        let sheet = Texts::s().sheet();
        let one = |draft: &[u8], sheet: &[u8], set| {
            let reached = take_up(draft, sheet, set);
            let [Taken::Malformed(what)] = reached[..] else {
                panic!("{reached:?}");
            };
            what
        };
        assert_eq!(one(&[0; DRAFT_SIZE - 1], &sheet, 0), Malformed::Draft);
        assert_eq!(one(&[0; DRAFT_SIZE - 1], &[], 0), Malformed::DraftAheadOf7);
        let mut damaged = sheet;
        damaged[389] = 1;
        assert_eq!(one(&[0; DRAFT_SIZE], &damaged, 0), Malformed::Sheet);
        let set = bit(101) | 1 << 15;
        assert_eq!(
            one(&[0; DRAFT_SIZE], &damaged, set),
            Malformed::SheetAheadOf20
        );
        assert_eq!(take_up(&[0; DRAFT_SIZE], &[], 0), []);
    }
}

//! Proposals, and what becomes of them when a part is taken up.

use cases::{message, message_of_any, Dates, Random, FIELDS};
use kieselbrot::{Completed, Refusal};

use crate::comparison::{hex, same, Comparison, Difference, Lent};
use crate::library::Library;
use crate::taken::{revision_in, slots, text_in, Way};

type Outcome<T> = Result<T, Difference>;

/// A draft that is completed at these dates, and what that gave.
#[derive(Clone)]
pub struct Proposal {
    draft: Lent,
    dates: Dates,
    completed: Completed,
    sheet: Lent,
}

impl Proposal {
    /// Completes a draft at these dates; nothing if that is refused.
    pub fn of<L: Library>(
        comparison: &mut Comparison<'_, L>,
        draft: &Lent,
        dates: Dates,
    ) -> Outcome<Option<Self>> {
        let before = Lent::filled(390, 0xEE);
        let (answer, sheet) = comparison.complete(draft.bytes(), before, dates)?;
        Ok(answer.ok().map(|completed| Self {
            draft: draft.clone(),
            dates,
            completed,
            sheet,
        }))
    }

    /// The set that completion returned.
    pub fn set(&self) -> u16 {
        self.completed.set
    }

    /// The proposed sheet.
    pub fn sheet(&self) -> &[u8] {
        self.sheet.bytes()
    }

    /// The slots of the returned set that are below the greatest revision.
    pub fn below_the_greatest(&self) -> u16 {
        let below = |slot: &usize| revision_in(self.draft.bytes(), *slot) < u32::MAX;
        slots(self.set())
            .filter(below)
            .fold(0, |set, slot| set | 1 << slot)
    }

    /// Takes up a part of the returned set. If it is not refused, posting the same values
    /// one by one ends in the same draft, and it is completed again.
    pub fn take_up<L: Library>(&self, comparison: &mut Comparison<'_, L>, set: u16) -> Outcome<()> {
        let mut taken = self.draft.clone();
        let answer = comparison.take_up(&mut taken, self.sheet(), set)?;
        let all = set & !self.below_the_greatest() == 0;
        same("take_up", answer.is_ok(), all, || self.shown(set))?;
        if answer.is_err() {
            return Ok(());
        }
        let one_after = |slot| {
            let revision = revision_in(self.draft.bytes(), slot) + 1;
            message(FIELDS[slot], revision, text_in(self.sheet(), slot))
        };
        let values: Vec<Vec<u8>> = slots(set).map(one_after).collect();
        let posted = self.post(comparison, &values)?;
        let input = || self.shown(set);
        same("take_up", taken.bytes(), posted.bytes(), input)?;
        self.complete_again(comparison, &taken, set, Way::TakenUp)
    }

    /// Posts the values of a part by hand, each with any revision above its slot's, by any
    /// party, in any order, and completes it again.
    pub fn post_by_hand<L: Library>(
        &self,
        comparison: &mut Comparison<'_, L>,
        random: &mut Random,
        set: u16,
    ) -> Outcome<()> {
        let mut values: Vec<Vec<u8>> = slots(set)
            .map(|slot| {
                let revision = revision_above(random, revision_in(self.draft.bytes(), slot));
                message_of_any(random, FIELDS[slot], revision, text_in(self.sheet(), slot))
            })
            .collect();
        random.shuffle(&mut values);
        let posted = self.post(comparison, &values)?;
        self.complete_again(comparison, &posted, set, Way::ByHand)
    }

    /// The draft after posting these messages.
    fn post<L: Library>(
        &self,
        comparison: &mut Comparison<'_, L>,
        values: &[Vec<u8>],
    ) -> Outcome<Lent> {
        let mut posted = self.draft.clone();
        for message in values {
            let _ = comparison.post(&mut posted, message)?;
        }
        Ok(posted)
    }

    /// Completes a draft that has taken up this part, at the same dates.
    fn complete_again<L: Library>(
        &self,
        comparison: &mut Comparison<'_, L>,
        taken: &Lent,
        set: u16,
        way: Way,
    ) -> Outcome<()> {
        let before = Lent::filled(390, 0xEE);
        let (answer, sheet) = comparison.complete(taken.bytes(), before, self.dates)?;
        self.stands(answer, sheet.bytes(), set)?;
        let Ok(Completed { count, .. }) = answer else {
            return Ok(());
        };
        let smaller = count < self.completed.count;
        comparison.reached.again(way, self.dates, set, smaller);
        Ok(())
    }

    /// The proposal stands: the very same sheet, a count no larger, and the returned set
    /// without the bits taken up.
    fn stands(&self, answer: Result<Completed, Refusal>, sheet: &[u8], set: u16) -> Outcome<()> {
        let input = || self.shown(set);
        same("take_up", sheet, self.sheet(), input)?;
        let left = self.completed.set & !set;
        let found = answer.map(|completed| {
            let no_larger = completed.count <= self.completed.count;
            (no_larger, completed.set, completed.ones)
        });
        same("take_up", found, Ok((true, left, left.count_ones())), input)
    }

    fn shown(&self, set: u16) -> String {
        let Self {
            draft,
            dates,
            completed,
            ..
        } = self;
        let draft = hex(draft.bytes());
        format!("draft {draft}, {dates:?}, {completed:?}, set {set:#06x}, completed again")
    }
}

/// Any revision above this one: the next, the greatest, or between.
fn revision_above(random: &mut Random, revision: u32) -> u32 {
    let room = u32::MAX - revision;
    let any = 1 + random.below(room as usize) as u32;
    revision + random.pick(&[1, any, room])
}

#[cfg(test)]
mod tests {
    use super::*;
    use crate::library::Reference;
    use cases::{slot_of, Texts, BLANKS};

    #[test]
    fn a_proposal_that_does_not_stand_is_found() {
        let open = Texts::s().without(&BLANKS).with(60, b"0").with(102, b"0");
        let draft = Lent::new(&open.draft(|_| 1));
        let mut comparison = Comparison::new(&Reference);
        let proposal = Proposal::of(&mut comparison, &draft, Dates::PROGRAM);
        let proposal = proposal.expect("no difference").expect("a proposal");
        let set = 1 << slot_of(101);
        let right = Completed {
            count: 1,
            set: proposal.set() & !set,
            ones: 6,
        };
        let found = |answer, sheet: &[u8]| proposal.stands(answer, sheet, set).is_err();
        let sheet = proposal.sheet();
        let as_before = Completed { count: 97, ..right };
        assert!(!found(Ok(right), sheet) && !found(Ok(as_before), sheet));
        let (count, ones) = (98, 7);
        assert!(found(Ok(Completed { count, ..right }), sheet));
        assert!(found(Ok(Completed { ones, ..right }), sheet));
        let set = proposal.set();
        assert!(found(Ok(Completed { set, ..right }), sheet));
        assert!(found(Ok(Completed { set: 0, ..right }), sheet));
        assert!(found(Err(Refusal::NoFilling { count }), sheet));
        assert!(found(Ok(right), &Texts::s().sheet()));
    }

    #[test]
    fn revisions_above() {
        let random = &mut Random::new(9);
        for revision in [0, 1, 255, u32::MAX / 2, u32::MAX - 1] {
            let above = (0..1000).map(|_| revision_above(random, revision));
            assert!(above.min() == Some(revision + 1));
            let above = (0..1000).map(|_| revision_above(random, revision));
            assert!(above.max() == Some(u32::MAX));
        }
    }
}

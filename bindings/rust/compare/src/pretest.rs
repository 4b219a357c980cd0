//! What must hold between the test ahead of completion and other answers.

use cases::{list_at, slot_of, Dates, Texts, DRAFT_SLOT_SIZE, LENGTH_PLACE};
use kieselbrot::{Broken, Completed, Refusal};

use crate::comparison::{hex, same, Difference};
use crate::library::Library;

type Outcome = Result<(), Difference>;

/// An answer of the test.
pub type Tested = Result<Option<Broken>, Refusal>;

/// The rules that the test may name, in the order of testing, each with its field.
pub const NAMED: [Broken; 13] = [
    named(5, 17),
    named(6, 61),
    named(6, 103),
    named(7, 22),
    named(8, 60),
    named(9, 61),
    named(11, 102),
    named(12, 103),
    named(13, 104),
    named(14, 105),
    named(16, 107),
    named(22, 22),
    named(28, 104),
];

const fn named(rule: u8, field: u8) -> Broken {
    Broken { field, rule }
}

/// The fields that vary the count of fillings.
pub const VARYING: [u8; 4] = [101, 106, 108, 109];

/// Whether a field of a well-formed draft is blank.
pub fn is_blank(draft: &[u8], field: u8) -> bool {
    draft[DRAFT_SLOT_SIZE * slot_of(field) + LENGTH_PLACE] == 0
}

/// The count of all fillings of a well-formed draft.
fn all_fillings(draft: &[u8], dates: Dates) -> usize {
    let blank = |field: &u8| is_blank(draft, *field);
    let entries = |field| list_at(field, dates).len();
    VARYING.into_iter().filter(blank).map(entries).product()
}

/// Completion refuses as the test does; where a rule is named, no filling keeps the
/// rules; where none is, the fillings are searched. Completion asks for the sheet's size
/// and for the dates besides; where it refuses these, it says nothing of the test.
pub fn fits_completion(
    draft: &[u8],
    dates: Dates,
    tested: Tested,
    completed: Result<Completed, Refusal>,
) -> Outcome {
    let input = || format!("draft {}, {dates:?}, tested as {tested:?}", hex(draft));
    let refusal = match tested {
        _ if completed == Err(Refusal::Output) => return Ok(()),
        _ if completed == Err(Refusal::Undated) && !dates.fit() => return Ok(()),
        Err(refusal) => refusal,
        Ok(Some(_)) => Refusal::NoFilling {
            count: all_fillings(draft, dates),
        },
        Ok(None) => {
            let searched = matches!(completed, Ok(_) | Err(Refusal::NoFilling { .. }));
            return same("complete", searched, true, input);
        }
    };
    same("complete", completed, Err(refusal), input)
}

/// A check of any filling names no other of the twelve rules than the test, and
/// accepts none where the test names one.
pub fn fits_fillings(
    library: &impl Library,
    dates: Dates,
    tested: Tested,
    fillings: &[Texts],
) -> Outcome {
    for filling in fillings {
        let sheet = filling.sheet();
        let expected = match library.check(&sheet, dates) {
            Ok(_) => None,
            Err(Refusal::Broken { field, rule })
                if NAMED.iter().any(|named| named.rule == rule) =>
            {
                Some(Broken { field, rule })
            }
            Err(_) => continue,
        };
        same("pretest", tested, Ok(expected), || {
            format!("a draft with the filling {}", hex(&sheet))
        })?;
    }
    Ok(())
}

#[cfg(test)]
mod tests {
    use super::*;
    use crate::library::Reference;
    use cases::fillings;

    const BROKEN: Tested = Ok(Some(named(28, 104)));

    fn none_of(count: usize) -> Result<Completed, Refusal> {
        Err(Refusal::NoFilling { count })
    }

    #[test]
    fn a_completion_that_does_not_fit_is_found() {
        let draft = Texts::s().without(&[101, 104, 108]).draft(|_| 1);
        let found_at =
            |dates, tested, completed| fits_completion(&draft, dates, tested, completed).is_err();
        let found = |tested, completed| found_at(Dates::PROGRAM, tested, completed);
        let completed = Completed {
            count: 1,
            set: 0,
            ones: 0,
        };
        assert!(!found(BROKEN, none_of(44)));
        assert!(found(BROKEN, none_of(22)));
        assert!(found(BROKEN, Ok(completed)));
        assert!(!found(Ok(None), none_of(44)));
        assert!(!found(Ok(None), Ok(completed)));
        assert!(found(Ok(None), Err(Refusal::Ordinary)));
        let ordinary = Err(Refusal::Ordinary);
        assert!(!found(ordinary, Err(Refusal::Ordinary)));
        assert!(found(ordinary, Err(Refusal::Malformed)));
        assert!(found(ordinary, none_of(44)));
        assert!(!found(ordinary, Err(Refusal::Output)));
        let early = Dates::given(20230924);
        assert!(!found_at(early, BROKEN, Err(Refusal::Undated)));
        assert!(found(BROKEN, Err(Refusal::Undated)));
        let all = Dates::PROGRAM.allowing([true; 3]);
        assert!(!found_at(all, BROKEN, none_of(46)));
        assert!(found_at(all, BROKEN, none_of(44)));
    }

    #[test]
    fn a_filling_that_does_not_fit_is_found() {
        let found = |tested, texts: Texts| {
            let all = fillings(&texts.without(&VARYING));
            fits_fillings(&Reference, Dates::PROGRAM, tested, &all).is_err()
        };
        let hopeless = Texts::s().without(&[104]);
        assert!(!found(BROKEN, hopeless));
        assert!(found(Ok(None), hopeless));
        assert!(found(Ok(Some(named(13, 104))), hopeless));
        assert!(!found(Ok(None), Texts::s()));
        assert!(found(BROKEN, Texts::s()));
    }
}

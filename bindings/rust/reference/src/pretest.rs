//! The test of a draft ahead of the search.

use crate::completion::{budget_class, first_filling};
use crate::draft::sheet_of;
use crate::refusal::{Broken, Refusal};
use crate::rules::{Class, LoneRule, AHEAD};
use crate::sheet::Sheet;

/// Tests a draft ahead of the search: "names, with its field, the first of rules
/// 5 to 9, 11 to 14, 16, 22 and 28 that all fillings break, or says none".
///
/// "It says none exactly when every filling keeps all of these; where it names
/// one, the search's answer is 10 with the count of all fillings."
///
/// # Errors
///
/// "The test refuses with 1, 8 and 9 as completion does", in this order:
/// [`Refusal::Malformed`] for the draft, [`Refusal::Broken`] for rules 1 to 3,
/// [`Refusal::Ordinary`]. No date is taken, so [`Refusal::Undated`] never.
pub fn pretest(draft: &[u8]) -> Result<Option<Broken>, Refusal> {
    let given = sheet_of(draft)?;
    let class = budget_class(&given)?;
    Ok(AHEAD
        .into_iter()
        .find_map(|rule| broken_by_all(&given, class, rule)))
}

/// The rule with its field if all fillings break it. The first filling that
/// keeps it settles that they don't.
///
/// The fillings have the draft's class, since "fields 14, 15, 17, 61, 103 have no
/// list and stay as given", and they name one field: only rule 6 has a choice,
/// and what is blank in one filling has no list and is blank in all. None of the
/// rules reads which status it is, so a blank 101 gets those of all dates.
fn broken_by_all(given: &Sheet<'_>, class: Class, rule: LoneRule) -> Option<Broken> {
    let mut named = None;
    let keeps = |filling: &Sheet<'_>| match rule(filling, class) {
        Ok(()) => true,
        Err(broken) => {
            named = Some(broken);
            false
        }
    };
    let kept = first_filling(given, |_| true, |_| false, keeps);
    if kept.is_ok() {
        None
    } else {
        named
    }
}

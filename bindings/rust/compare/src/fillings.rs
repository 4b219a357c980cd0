//! Completion by going through the list of all fillings.

use cases::{filled_set, fillings_at, Dates, Sheet, Texts};
use kieselbrot::{Completed, Refusal};

use crate::comparison::{hex, same, Comparison, Difference, Lent};
use crate::library::Library;
use crate::pretest::fits_fillings;
use crate::quick;

/// What completing a budget payment should answer, by trying every filling.
fn search(
    library: &impl Library,
    dates: Dates,
    given: &Texts,
    all: &[Texts],
) -> (Result<Completed, Refusal>, Option<Sheet>) {
    let accepted = |filling: &Texts| library.check(&filling.sheet(), dates).is_ok();
    let Some(place) = all.iter().position(accepted) else {
        let count = all.len();
        return (Err(Refusal::NoFilling { count }), None);
    };
    let set = filled_set(given);
    let completed = Completed {
        count: place + 1,
        set,
        ones: (0..15).map(|slot| u32::from(set >> slot & 1)).sum(),
    };
    (Ok(completed), Some(all[place].sheet()))
}

/// Tests and completes a draft at these dates, and if it is one of class A or B holds the
/// answers against the list of all fillings, judged by the library's own check.
pub fn complete<L: Library>(
    comparison: &mut Comparison<'_, L>,
    given: &Texts,
    draft: &[u8],
    dates: Dates,
) -> Result<(), Difference> {
    let (answer, sheet) = comparison.complete(draft, Lent::filled(390, 0xEE), dates)?;
    if matches!(
        answer,
        Err(Refusal::Malformed | Refusal::Undated | Refusal::Broken { .. } | Refusal::Ordinary)
    ) {
        return Ok(());
    }
    let library = comparison.library();
    let all = fillings_at(given, dates);
    fits_fillings(library, dates, library.pretest(draft), &all)?;
    let (expected, filling) = search(library, dates, given, &all);
    let input = || format!("draft {}, {dates:?}, by all fillings", hex(draft));
    same("complete", answer, expected, input)?;
    let filling = filling.unwrap_or([0xEE; 390]);
    same("complete", sheet.bytes(), &filling[..], input)?;
    let quickened = library.quick(draft, &mut [0; 390], dates);
    let skipped = quick::skipped(library, draft, dates, expected, sheet.bytes());
    same("quick", quickened.skipped, skipped, input)
}

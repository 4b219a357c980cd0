//! A book of drafts, completed on one core and on all.

use std::hint::black_box;
use std::thread;
use std::time::Instant;

use cases::Draft;

use crate::dates::{Dated, ANOTHER, GIVEN};
use crate::measure::{tell, Row, NO_SLOWER};

/// How many times each goes through the book.
const TIMES: usize = 7;

/// The rows of a book, and of one of which half is hopeless from the start.
pub fn rows(book: &[Draft], half_hopeless: &[Draft]) -> [Row; 4] {
    let one_core = "a book of 100,000 drafts, one core (each)";
    [
        row(one_core, book, 1, GIVEN),
        row(
            "a book of 100,000 drafts, all cores (each)",
            book,
            cores(),
            GIVEN,
        ),
        row(
            "a book of which half is hopeless from the start (each)",
            half_hopeless,
            1,
            GIVEN,
        ),
        row(one_core, book, 1, ANOTHER),
    ]
}

/// How many cores there are.
pub fn cores() -> usize {
    thread::available_parallelism().map_or(1, usize::from)
}

fn row(name: &str, book: &[Draft], threads: usize, dated: Dated) -> Row {
    let name = format!("{name}{}", dated.name);
    tell(&name);
    let mut least = [f64::INFINITY; 2];
    for _ in 0..TIMES {
        least[0] = least[0].min(time(book, threads, |draft, sheet| {
            dated.complete(draft, sheet).is_ok()
        }));
        least[1] = least[1].min(time(book, threads, |draft, sheet| {
            dated.complete_by_second(draft, sheet).is_ok()
        }));
    }
    let [library, reference] = least;
    Row {
        name,
        library,
        reference,
        goal: NO_SLOWER,
    }
}

/// Nanoseconds for each draft, by the clock on the wall.
fn time(book: &[Draft], threads: usize, complete: impl Fn(&[u8], &mut [u8]) -> bool + Sync) -> f64 {
    let complete = &complete;
    let start = Instant::now();
    thread::scope(|scope| {
        for part in book.chunks(book.len().div_ceil(threads)) {
            scope.spawn(move || {
                let mut sheet = [0; 390];
                let completed = |draft: &&Draft| complete(black_box(*draft), &mut sheet);
                black_box(part.iter().filter(completed).count())
            });
        }
    });
    start.elapsed().as_nanos() as f64 / book.len() as f64
}

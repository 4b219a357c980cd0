//! The library against the second implementation, and the comparison against
//! itself: a difference planted on purpose is found.

use compare::{Linked, Reference, Run, CASES, PLANTS, SEED};

#[test]
fn the_library_agrees_with_the_second_implementation() {
    let run = Run::from_environment();
    println!("SEED={} CASES={}", run.seed, run.cases);
    let report = run.compare(&Linked);
    let reached = report.reached();
    println!("{reached}{} calls in {:?}", reached.calls, report.time);
    let failings = report.failings(&run);
    assert!(failings.is_empty(), "{}", failings.join("\n"));
}

/// Generated cases alone, as many as usual, on one thread: what is planted is found among
/// them.
const SEARCH: Run = Run {
    seed: SEED,
    cases: CASES,
    threads: 1,
    exhaustive: false,
};

#[test]
fn planted_differences_are_found() {
    for plant in PLANTS {
        let report = SEARCH.compare(&plant);
        let Some((place, difference)) = report.difference else {
            panic!("{plant:?} was not found");
        };
        println!(
            "{plant:?}: {} at {place}, after {:?}",
            difference.function, report.time
        );
    }
}

#[test]
fn nothing_is_found_where_nothing_is_planted() {
    let run = Run {
        cases: 20_000,
        ..SEARCH
    };
    let report = run.compare(&Reference);
    assert!(report.difference.is_none());
}

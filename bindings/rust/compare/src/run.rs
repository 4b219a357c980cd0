//! All comparisons, on all cores.

use std::env;
use std::str::FromStr;
use std::sync::atomic::{AtomicBool, AtomicUsize, Ordering};
use std::sync::{Mutex, PoisonError};
use std::thread;
use std::time::{Duration, Instant};

use cases::Random;

use crate::comparison::{Comparison, Difference};
use crate::library::Library;
use crate::reached::Reached;
use crate::{blocks, broken, exhaustive, exhaustive_messages, generated, origins, streams};

/// The seed, unless `SEED` gives another.
pub const SEED: u64 = 107;

/// The number of generated cases, unless `CASES` gives another.
pub const CASES: usize = 1_000_000;

/// Generated cases go in portions, each with numbers of its own, so that a seed
/// gives the same cases on any number of cores.
const PORTION: usize = 5_000;

/// The number in an environment variable, or another if it is not set.
///
/// # Panics
///
/// If the variable is set to something else than a number.
#[must_use]
pub fn setting<T: FromStr>(name: &str, otherwise: T) -> T {
    match env::var(name) {
        Ok(value) => value
            .replace('_', "")
            .parse()
            .unwrap_or_else(|_| panic!("{name}={value} is not a number")),
        Err(_) => otherwise,
    }
}

/// What to run.
#[derive(Clone, Copy, Debug)]
pub struct Run {
    /// The seed of all generated cases.
    pub seed: u64,
    /// How many cases are generated.
    pub cases: usize,
    /// On how many threads.
    pub threads: usize,
    /// Whether to go through the exhaustive cases, too.
    pub exhaustive: bool,
}

/// What a run found.
#[derive(Debug, Default)]
pub struct Report {
    /// What the cases that are gone through one and all reached.
    pub exhaustive: Reached,
    /// What the generated cases reached.
    pub generated: Reached,
    /// A difference, if there was one, and where.
    pub difference: Option<(String, Difference)>,
    /// How long it took.
    pub time: Duration,
}

impl Report {
    fn add(&mut self, piece: Piece, reached: &Reached, difference: Option<(String, Difference)>) {
        match piece {
            Piece::Generated(_) => self.generated.add(reached),
            _ => self.exhaustive.add(reached),
        }
        self.difference = self.difference.take().or(difference);
    }

    /// What all cases reached.
    #[must_use]
    pub fn reached(&self) -> Reached {
        let mut reached = self.exhaustive.clone();
        reached.add(&self.generated);
        reached
    }

    /// What is wrong: the difference, or what was never reached. Generated cases
    /// must reach everything by themselves, if there are as many as usual.
    #[must_use]
    pub fn failings(&self, run: &Run) -> Vec<String> {
        if let Some((place, difference)) = &self.difference {
            return vec![format!("SEED={} at {place}: {difference}", run.seed)];
        }
        let mut failings = self.exhaustive.failings();
        if run.cases >= CASES {
            failings.extend(self.generated.failings());
        }
        failings
    }
}

/// A piece of the run, for one thread at a time.
#[derive(Clone, Copy, Debug)]
enum Piece {
    Table,
    Sizes,
    Places,
    BrokenPairs,
    Messages,
    Dates,
    Entries,
    TakeUps,
    Lines,
    Charges,
    Parts,
    Shares,
    Pools,
    Queues,
    Arrangements,
    Blanks(usize),
    Forms(usize),
    Generated(usize),
}

impl Run {
    /// Everything, as the environment sets it, on all cores.
    #[must_use]
    pub fn from_environment() -> Self {
        Self {
            seed: setting("SEED", SEED),
            cases: setting("CASES", CASES),
            threads: thread::available_parallelism().map_or(1, usize::from),
            exhaustive: true,
        }
    }

    /// Compares the library with the second implementation until all is done or
    /// a difference is found.
    pub fn compare(&self, library: &impl Library) -> Report {
        let start = Instant::now();
        let pieces = self.pieces();
        let next = AtomicUsize::new(0);
        let stop = AtomicBool::new(false);
        let report = Mutex::new(Report::default());
        let work = || {
            while !stop.load(Ordering::Relaxed) {
                let Some(&piece) = pieces.get(next.fetch_add(1, Ordering::Relaxed)) else {
                    break;
                };
                let mut comparison = Comparison::new(library);
                let difference = self.piece(&mut comparison, piece).err();
                stop.fetch_or(difference.is_some(), Ordering::Relaxed);
                let mut report = report.lock().unwrap_or_else(PoisonError::into_inner);
                report.add(piece, &comparison.reached, difference);
            }
        };
        thread::scope(|scope| {
            (0..self.threads.max(1)).for_each(|_| drop(scope.spawn(work)));
        });
        let mut report = report.into_inner().unwrap_or_else(PoisonError::into_inner);
        report.time = start.elapsed();
        report
    }

    /// All pieces, the quick ones first.
    fn pieces(&self) -> Vec<Piece> {
        let mut generated = (0..self.cases.div_ceil(PORTION)).map(Piece::Generated);
        let mut pieces = Vec::new();
        if self.exhaustive {
            pieces.extend([Piece::Table, Piece::Sizes, Piece::Places, Piece::Messages]);
            pieces.extend([Piece::Charges, Piece::Parts, Piece::Shares, Piece::Pools]);
            pieces.extend([Piece::Queues, Piece::TakeUps, Piece::Lines]);
            pieces.extend([Piece::BrokenPairs, Piece::Entries]);
            pieces.extend([Piece::Dates, Piece::Arrangements]);
            pieces.extend(generated.by_ref().take(10));
            pieces.extend((0..exhaustive::BLANK_PARTS).map(Piece::Blanks));
            pieces.extend((0..exhaustive::FORM_PARTS).map(Piece::Forms));
        }
        pieces.extend(generated);
        pieces
    }

    fn piece<L: Library>(
        &self,
        comparison: &mut Comparison<'_, L>,
        piece: Piece,
    ) -> Result<(), (String, Difference)> {
        let random = |number: usize| Random::new(self.seed.wrapping_add((number as u64) << 32));
        let outcome = match piece {
            Piece::Table => exhaustive::table(comparison),
            Piece::Sizes => exhaustive::sizes(comparison),
            Piece::Places => exhaustive::places(comparison),
            Piece::BrokenPairs => broken::pairs(comparison, &mut random(12)),
            Piece::Messages => exhaustive_messages::all(comparison),
            Piece::Dates => exhaustive::dates(comparison, &mut random(0)),
            Piece::Entries => exhaustive::entries(comparison),
            Piece::TakeUps => exhaustive::take_ups(comparison, &mut random(10)),
            Piece::Lines => blocks::every(comparison, &mut random(11)),
            Piece::Charges => exhaustive::charges(comparison),
            Piece::Parts => exhaustive::parts(comparison),
            Piece::Shares => exhaustive::shares(comparison),
            Piece::Pools => exhaustive::pools(comparison),
            Piece::Queues => exhaustive::queues(comparison),
            Piece::Arrangements => (1..=6)
                .try_for_each(|size| streams::arrangements(comparison, &mut random(size), size))
                .and_then(|()| streams::every_list(comparison))
                .and_then(|()| origins::every_list(comparison)),
            Piece::Blanks(part) => exhaustive::blanks(comparison, &mut random(100 + part), part),
            Piece::Forms(part) => exhaustive::forms(comparison, &mut random(200 + part), part),
            Piece::Generated(portion) => return self.generated(comparison, portion),
        };
        outcome.map_err(|difference| (format!("{piece:?}"), difference))
    }

    /// A portion of the generated cases.
    fn generated<L: Library>(
        &self,
        comparison: &mut Comparison<'_, L>,
        portion: usize,
    ) -> Result<(), (String, Difference)> {
        let mut random = Random::new(self.seed.wrapping_add((1000 + portion as u64) << 32));
        let first = portion * PORTION;
        let last = self.cases.min(first + PORTION);
        (first..last).try_for_each(|case| {
            generated::case(comparison, &mut random)
                .map_err(|difference| (format!("generated case {}", case + 1), difference))
        })
    }
}

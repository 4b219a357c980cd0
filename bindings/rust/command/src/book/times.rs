//! How long the parts of the work take.

use std::sync::atomic::{AtomicU64, Ordering};
use std::time::{Duration, Instant};

use super::rows::Counts;

/// Time that was measured, if it is.
#[derive(Default)]
pub struct Times {
    is_measured: bool,
    reading: AtomicU64,
    splitting: AtomicU64,
    grouping: AtomicU64,
    posting: AtomicU64,
    completing: AtomicU64,
    merging: AtomicU64,
    writing: AtomicU64,
}

/// What was measured of a book. Reading, splitting, merging and writing by the clock on the
/// wall; grouping, posting and completing summed over the threads.
#[derive(Clone, Debug)]
pub struct Shares {
    /// How many orders there were.
    pub orders: usize,
    /// How many messages that read.
    pub messages: usize,
    /// How many orders were completed.
    pub completed: usize,
    /// How many orders were refused.
    pub refused: usize,
    /// How many messages clash.
    pub clashes: usize,
    /// How many bytes of input.
    pub input: usize,
    /// Names and times.
    pub times: [(&'static str, Duration); 7],
}

impl Times {
    /// Times that are measured.
    pub(super) fn measured() -> Self {
        Self {
            is_measured: true,
            ..Self::default()
        }
    }

    fn time<T>(&self, sum: &AtomicU64, work: impl FnOnce() -> T) -> T {
        if !self.is_measured {
            return work();
        }
        let start = Instant::now();
        let result = work();
        let nanoseconds = start.elapsed().as_nanos() as u64;
        sum.fetch_add(nanoseconds, Ordering::Relaxed);
        result
    }

    pub(super) fn reading<T>(&self, work: impl FnOnce() -> T) -> T {
        self.time(&self.reading, work)
    }

    pub(super) fn splitting<T>(&self, work: impl FnOnce() -> T) -> T {
        self.time(&self.splitting, work)
    }

    pub(super) fn grouping<T>(&self, work: impl FnOnce() -> T) -> T {
        self.time(&self.grouping, work)
    }

    pub(super) fn posting<T>(&self, work: impl FnOnce() -> T) -> T {
        self.time(&self.posting, work)
    }

    pub(super) fn completing<T>(&self, work: impl FnOnce() -> T) -> T {
        self.time(&self.completing, work)
    }

    pub(super) fn merging<T>(&self, work: impl FnOnce() -> T) -> T {
        self.time(&self.merging, work)
    }

    pub(super) fn writing<T>(&self, work: impl FnOnce() -> T) -> T {
        self.time(&self.writing, work)
    }

    pub(super) fn shares(&self, counts: &Counts, input: usize) -> Shares {
        let of = |sum: &AtomicU64| Duration::from_nanos(sum.load(Ordering::Relaxed));
        Shares {
            orders: counts.orders,
            messages: counts.messages,
            completed: counts.completed,
            refused: counts.refused,
            clashes: counts.clashes,
            input,
            times: [
                ("reading", of(&self.reading)),
                ("splitting", of(&self.splitting)),
                ("grouping", of(&self.grouping)),
                ("posting", of(&self.posting)),
                ("completing", of(&self.completing)),
                ("merging", of(&self.merging)),
                ("writing", of(&self.writing)),
            ],
        }
    }
}

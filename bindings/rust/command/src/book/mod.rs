//! `book`: all orders of a file.
//!
//! The file is read whole. Its lines are split by a hash of the order's name, so that all
//! lines of an order are in one part, in the order of arrival; the parts share nothing, and
//! each core takes the next. In a part the lines of each order are chained and posted
//! to one draft, which is completed.

mod lines;
mod orders;
mod rows;
mod times;

use std::ffi::OsString;
use std::io::{self, IsTerminal, Write};
use std::num::NonZero;
use std::sync::atomic::{AtomicUsize, Ordering};
use std::sync::mpsc;
use std::thread;
use std::time::Duration;

use crate::arguments::parse;
use crate::dates::{self, dates};
use crate::input::{Input, MARK};
use crate::{tell, Answer, Status};

pub use times::{Shares, Times};

use lines::{split, Lines};
use orders::{complete, Asked, Flaw, Given, Outcome};
use rows::Rows;

/// A book that is completed.
struct Book<'a> {
    lines: Lines<'a>,
    /// The orders, by first appearance.
    outcomes: Vec<Outcome>,
    /// Wrong lines and clashes, by order and line.
    flaws: Vec<Flaw>,
    /// The texts of the orders that are refused, by order, if they are kept.
    given: Vec<Given>,
}

/// `book FILE`.
pub(crate) fn run(given: &[OsString]) -> Answer {
    let arguments = parse(given, &["--json"], &dates::OPTIONS)?;
    let path = arguments.one("FILE")?;
    let terms = dates(&arguments)?;
    let input = Input::read(path)?;
    let is_json = arguments.has("--json");
    let asked = Asked {
        terms,
        keeps_given: is_json,
    };
    let book = completed(&input.bytes, asked, cores(), &Times::default());
    let rows = Rows::new(&book, &input.name, terms);
    rows.tell_wrong_lines();
    let mut out = io::stdout().lock();
    if is_json {
        rows.write_json(&mut out, cores())?;
    } else {
        rows.write_words(&mut out)?;
    }
    out.flush()?;
    Ok(rows.status())
}

/// Completes the book in a file as `book` does and gives the time that each part of it
/// takes; what it prints goes nowhere.
///
/// # Errors
///
/// If the file can't be read.
pub fn timed(path: &std::path::Path) -> io::Result<Shares> {
    let times = Times::measured();
    let bytes = times.reading(|| std::fs::read(path))?;
    let asked = Asked {
        terms: order::TERMS,
        keeps_given: false,
    };
    let book = completed(&bytes, asked, cores(), &times);
    let rows = Rows::new(&book, "", asked.terms);
    times.writing(|| rows.write_words(&mut io::sink()))?;
    Ok(times.shares(&rows.counts(), bytes.len()))
}

fn cores() -> NonZero<usize> {
    thread::available_parallelism().unwrap_or(NonZero::<usize>::MIN)
}

/// Splits the lines and completes each order.
fn completed<'a>(
    input: &'a [u8],
    asked: Asked,
    threads: NonZero<usize>,
    times: &Times,
) -> Book<'a> {
    let input = input.strip_prefix(MARK).unwrap_or(input);
    let progress = Progress::new();
    progress.shown(|| {
        let lines = times.splitting(|| split(input, threads, &progress));
        let done = in_parallel(lines.parts(), threads, &progress, |number| {
            complete(&lines.part(number), asked, times)
        });
        times.merging(|| {
            let (mut outcomes, mut flaws, mut given) = (Vec::new(), Vec::new(), Vec::new());
            outcomes.reserve_exact(done.iter().map(|part| part.outcomes.len()).sum());
            for part in done {
                outcomes.extend(part.outcomes);
                flaws.extend(part.flaws);
                given.extend(part.given);
            }
            outcomes.sort_unstable_by_key(|outcome: &Outcome| outcome.place);
            flaws.sort_unstable_by_key(|flaw: &Flaw| (flaw.order, flaw.place));
            given.sort_unstable_by_key(|given: &Given| given.order);
            Book {
                lines,
                outcomes,
                flaws,
                given,
            }
        })
    })
}

/// Does numbered pieces of work on all threads, each taking the next; their results by number.
fn in_parallel<T: Send>(
    count: usize,
    threads: NonZero<usize>,
    progress: &Progress,
    work: impl Fn(usize) -> T + Sync,
) -> Vec<T> {
    progress.begin(count);
    let next = AtomicUsize::new(0);
    let one = || {
        let mut done = Vec::new();
        loop {
            let number = next.fetch_add(1, Ordering::Relaxed);
            if number >= count {
                return done;
            }
            done.push((number, work(number)));
            progress.step();
        }
    };
    let mut all = thread::scope(|scope| {
        // Without another thread this one does all.
        let others: Vec<_> = (1..threads.get().min(count))
            .filter_map(|_| thread::Builder::new().spawn_scoped(scope, one).ok())
            .collect();
        let mut all = one();
        for other in others {
            match other.join() {
                Ok(done) => all.extend(done),
                Err(panic) => std::panic::resume_unwind(panic),
            }
        }
        all
    });
    all.sort_unstable_by_key(|(number, _)| *number);
    all.into_iter().map(|(_, result)| result).collect()
}

/// How far the work is: twice, splitting and completing, in pieces.
struct Progress {
    done: AtomicUsize,
    count: AtomicUsize,
    begun: AtomicUsize,
}

impl Progress {
    const fn new() -> Self {
        Self {
            done: AtomicUsize::new(0),
            count: AtomicUsize::new(0),
            begun: AtomicUsize::new(0),
        }
    }

    fn begin(&self, count: usize) {
        self.done.store(0, Ordering::Relaxed);
        self.count.store(count, Ordering::Relaxed);
        self.begun.fetch_add(1, Ordering::Relaxed);
    }

    fn step(&self) {
        self.done.fetch_add(1, Ordering::Relaxed);
    }

    /// The line that shows it.
    fn line(&self) -> String {
        let doing = match self.begun.load(Ordering::Relaxed) {
            0 | 1 => "reading",
            _ => "completing",
        };
        let count = self.count.load(Ordering::Relaxed).max(1);
        let percent = 100 * self.done.load(Ordering::Relaxed) / count;
        format!("\r{doing} {percent:>3} %")
    }

    /// Works, and shows how far it is on standard error if that is a terminal.
    fn shown<T: Send>(&self, work: impl FnOnce() -> T + Send) -> T {
        if !io::stderr().is_terminal() {
            return work();
        }
        thread::scope(|scope| {
            let (end, ended) = mpsc::channel::<()>();
            let show = move || {
                while ended.recv_timeout(Duration::from_millis(200))
                    == Err(mpsc::RecvTimeoutError::Timeout)
                {
                    let _ = write!(io::stderr().lock(), "{}", self.line());
                }
                let _ = write!(io::stderr().lock(), "\r{:20}\r", "");
            };
            let shown = thread::Builder::new().spawn_scoped(scope, show);
            let result = work();
            drop(end);
            drop(shown);
            result
        })
    }
}

impl Rows<'_> {
    /// Names the wrong lines on standard error.
    fn tell_wrong_lines(&self) {
        self.wrong_lines().for_each(|line| tell(&line));
    }

    fn status(&self) -> Status {
        let counts = self.counts();
        if counts.refused > 0 {
            Status::Refused
        } else if counts.clashes > 0 || counts.wrong > 0 {
            Status::Flawed
        } else {
            Status::Done
        }
    }
}

#[cfg(test)]
mod tests {
    use super::*;

    #[test]
    fn work_is_done_once_and_in_order() {
        for threads in [1, 2, 7] {
            let threads = NonZero::new(threads).expect("not 0");
            for count in [0, 1, 2, 100] {
                let progress = Progress::new();
                let done = in_parallel(count, threads, &progress, |number| number * 2);
                assert!(done.into_iter().eq((0..count).map(|number| number * 2)));
                assert_eq!(progress.done.load(Ordering::Relaxed), count);
            }
        }
    }

    #[test]
    fn progress_is_told() {
        let progress = Progress::new();
        assert_eq!(progress.line(), "\rreading   0 %");
        progress.begin(4);
        progress.step();
        assert_eq!(progress.line(), "\rreading  25 %");
        progress.begin(2);
        progress.step();
        progress.step();
        assert_eq!(progress.line(), "\rcompleting 100 %");
    }
}

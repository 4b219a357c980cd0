//! The least of many interleaved batches.

use std::fmt;
use std::hint::black_box;
use std::time::{Duration, Instant};

/// How long a batch should be: long against the clock, short against whatever
/// else the machine does.
const BATCH: Duration = Duration::from_micros(200);

/// How many batches of each there are at most, and at least where a row takes long.
const BATCHES_MOST: usize = 400;
const BATCHES_LEAST: usize = 100;

/// How long a row takes that has more than the least number of batches.
const ROW: Duration = Duration::from_secs(2);

/// What a row should reach.
#[derive(Clone, Copy, Debug)]
pub enum Goal {
    /// At most this part of the second implementation's time.
    OfSecond(f64),
    /// At most this part of the library's own time in another row.
    OfOwn {
        /// The part.
        part: f64,
        /// What the other row measures.
        name: &'static str,
        /// The library in the other row.
        library: f64,
    },
}

/// The goal of most rows: the library is no slower.
pub const NO_SLOWER: Goal = Goal::OfSecond(1.0);

impl fmt::Display for Goal {
    fn fmt(&self, f: &mut fmt::Formatter<'_>) -> fmt::Result {
        match self {
            Self::OfSecond(part) => write!(f, "{part:?}"),
            Self::OfOwn { part, name, .. } => write!(f, "{part:?} of {name}"),
        }
    }
}

/// A line of the table, in nanoseconds each.
#[derive(Clone, Debug)]
pub struct Row {
    /// What was measured.
    pub name: String,
    /// The library.
    pub library: f64,
    /// The second implementation.
    pub reference: f64,
    /// What to reach.
    pub goal: Goal,
}

impl Row {
    /// Measures both on the same inputs, batch after batch in turn.
    pub fn measure<T, A, B>(
        name: impl Into<String>,
        goal: Goal,
        inputs: &[T],
        library: impl Fn(&T) -> A,
        reference: impl Fn(&T) -> B,
    ) -> Self {
        let name = name.into();
        tell(&name);
        let sizes = [batch_size(inputs, &library), batch_size(inputs, &reference)];
        let mut least = [f64::INFINITY; 2];
        let start = Instant::now();
        for batch in 0..BATCHES_MOST {
            if batch >= BATCHES_LEAST && start.elapsed() >= ROW {
                break;
            }
            let first = batch * 31;
            least[0] = least[0].min(time(inputs, first, sizes[0], &library));
            least[1] = least[1].min(time(inputs, first, sizes[1], &reference));
        }
        let [library, reference] = least;
        Self {
            name,
            library,
            reference,
            goal,
        }
    }

    /// How the library stands to the second implementation: below 1 it is faster.
    pub fn ratio(&self) -> f64 {
        self.library / self.reference
    }

    /// How the library stands to itself in the row that the goal is a part of, if it
    /// is of one.
    pub fn own_ratio(&self) -> Option<f64> {
        match self.goal {
            Goal::OfSecond(_) => None,
            Goal::OfOwn { library, .. } => Some(self.library / library),
        }
    }

    /// What became of the goal.
    pub fn outcome(&self) -> &'static str {
        let reached = match self.goal {
            Goal::OfSecond(part) => self.ratio() <= part,
            Goal::OfOwn { part, library, .. } => self.library <= part * library,
        };
        outcome(reached)
    }
}

/// What became of a goal.
pub fn outcome(reached: bool) -> &'static str {
    if reached {
        "reached"
    } else {
        "missed"
    }
}

/// Says on standard error which row is measured.
pub fn tell(name: &str) {
    eprintln!("measuring: {name}");
}

/// The inputs of a batch that lasts long enough: all of them, for the quick up to four times.
fn batch_size<T, A>(inputs: &[T], call: &impl Fn(&T) -> A) -> usize {
    let each = time(inputs, 0, inputs.len(), call).max(1.0);
    let wanted = BATCH.as_nanos() as f64 / each;
    (wanted as usize).clamp(inputs.len(), 4 * inputs.len())
}

/// Nanoseconds for one input, over a batch that begins somewhere.
fn time<T, A>(inputs: &[T], first: usize, size: usize, call: &impl Fn(&T) -> A) -> f64 {
    let (before, after) = inputs.split_at(first % inputs.len());
    let start = Instant::now();
    for input in after.iter().chain(before).cycle().take(size) {
        black_box(call(black_box(input)));
    }
    start.elapsed().as_nanos() as f64 / size as f64
}

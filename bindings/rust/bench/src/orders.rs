//! A book of orders, as the command `kieselbrot book` completes it, beside `sort` of the same
//! file.

use std::env;
use std::ffi::OsStr;
use std::fmt::{self, Write as _};
use std::fs::{self, File};
use std::io::{self, BufWriter, Write};
use std::path::{Path, PathBuf};
use std::process::{Command, Stdio};
use std::time::{Duration, Instant};

use crate::book::cores;
use crate::measure::{outcome, tell};

/// The orders of the book; another has ten times as many.
const ORDERS: usize = 100_000;

/// How many times each is run.
const RUNS: usize = 3;

/// At most this part of the time that `sort` takes.
const OF_SORT: f64 = 0.5;

/// At most this many times as long for ten times the orders.
const TENFOLD: f64 = 12.0;

/// At most so many bytes an order, beside the input.
const BYTES: f64 = 1024.0;

/// The argument with which this program completes a book and tells the shares of the work.
pub const INSIDE: &str = "--inside";

/// What was measured: the least of the runs, in seconds.
pub struct Orders {
    orders: usize,
    sort: f64,
    once: f64,
    tenfold: f64,
    inside: [Inside; 2],
}

/// One book, completed in a process of its own.
struct Inside {
    /// Bytes an order beside the input, if the system tells the memory.
    bytes: Option<f64>,
    /// Names and seconds by the clock on the wall.
    shares: Vec<(String, f64)>,
}

/// Measures books of so many orders, or of as many as the table has.
pub fn measure(orders: Option<usize>) -> io::Result<Orders> {
    let orders = orders.unwrap_or(ORDERS);
    tell("writing the books of orders");
    let (small, great) = (Book::new(orders)?, Book::new(10 * orders)?);
    let command = env::current_exe()?.with_file_name("kieselbrot");
    let mut least = [f64::INFINITY; 3];
    for number in 1..=RUNS {
        tell(&format!(
            "a book of orders beside sort, run {number} of {RUNS}"
        ));
        let of_book = |book: &Book| run(Command::new(&command).arg("book").arg(&book.0));
        let mut sort = Command::new("sort");
        sort.arg("--parallel=2").arg(&small.0).env("LC_ALL", "C");
        let times = [run(&mut sort)?, of_book(&small)?, of_book(&great)?];
        for (least, time) in least.iter_mut().zip(times) {
            *least = least.min(time.as_secs_f64());
        }
    }
    let [sort, once, tenfold] = least;
    Ok(Orders {
        orders,
        sort,
        once,
        tenfold,
        inside: [small.inside()?, great.inside()?],
    })
}

/// The messages of an order: 15 lines. `#` stands for digits of the order's own; an order in
/// twenty can't be completed, and one in a hundred has a clash.
const MESSAGES: [&str; 15] = [
    "14 1 004525988",
    "14 2 004525987",
    "15 1 40102810845370000004",
    "17 1 03100643000000014800",
    "60 1 7701569734",
    "60 2 7701569743",
    "61 1 6730054024",
    "102 1 770301001",
    "103 1 772801001",
    "104 2 18201061201010000510",
    "104 1 18210102010011000110",
    "101 1 08",
    "101 2 ",
    "client 108 1 #",
    "105 1 45301000",
];

/// A file with a book, removed when it is dropped.
struct Book(PathBuf);

impl Drop for Book {
    fn drop(&mut self) {
        let _ = fs::remove_file(&self.0);
    }
}

impl Book {
    fn new(orders: usize) -> io::Result<Self> {
        let name = format!("kieselbrot-book-{}-{orders}.txt", std::process::id());
        let book = Self(env::temp_dir().join(name));
        write_book(orders, &book.0)?;
        Ok(book)
    }

    /// The shares of the work on it, measured in a process of its own.
    fn inside(&self) -> io::Result<Inside> {
        let mut program = Command::new(env::current_exe()?);
        let output = program.arg(INSIDE).arg(&self.0).output()?;
        if !output.status.success() {
            return Err(io::Error::other(format!("{program:?}: {}", output.status)));
        }
        let told = String::from_utf8(output.stdout).map_err(io::Error::other)?;
        let mut inside = Inside {
            bytes: None,
            shares: Vec::new(),
        };
        for line in told.lines() {
            let (name, number) = line.split_once(' ').unwrap_or((line, ""));
            let number = number.parse().map_err(io::Error::other)?;
            match name {
                "bytes" => inside.bytes = Some(number),
                _ => inside.shares.push((name.to_owned(), number)),
            }
        }
        Ok(inside)
    }
}

/// Writes a book of so many orders, its lines in any order.
fn write_book(orders: usize, path: &Path) -> io::Result<()> {
    let mut state = 1_u64;
    let mut below = |bound: usize| {
        // xorshift
        state ^= state << 13;
        state ^= state >> 7;
        state ^= state << 17;
        ((u128::from(state) * bound as u128) >> 64) as usize
    };
    let count = orders * MESSAGES.len();
    let mut lines: Vec<u32> = (0..u32::try_from(count).map_err(io::Error::other)?).collect();
    for last in (1..lines.len()).rev() {
        lines.swap(last, below(last + 1));
    }
    let mut out = BufWriter::with_capacity(1 << 20, File::create(path)?);
    let mut line = String::new();
    for number in lines {
        let (order, message) = (
            number as usize / MESSAGES.len(),
            number as usize % MESSAGES.len(),
        );
        line.clear();
        // Writing to a string never fails.
        let _ = write!(line, "N{order:08} ");
        match (order % 100, MESSAGES[message]) {
            (0 | 20 | 40 | 60 | 80, "104 2 18201061201010000510") => line += "104 2 0",
            (7, "60 1 7701569734") => line += "105 1 45302000",
            (_, message) => {
                let text = message.strip_suffix('#');
                line += text.unwrap_or(message);
                if text.is_some() {
                    let _ = write!(line, "{order}");
                }
            }
        }
        line.push('\n');
        out.write_all(line.as_bytes())?;
    }
    out.into_inner()?.sync_all()
}

/// How long a program takes; what it prints goes nowhere.
fn run(command: &mut Command) -> io::Result<Duration> {
    let start = Instant::now();
    let mut program = command
        .stdout(Stdio::null())
        .stderr(Stdio::null())
        .spawn()?;
    let status = program.wait()?;
    let time = start.elapsed();
    match status.code() {
        // `book` answers 1 where an order is refused.
        Some(0 | 1 | 3) => Ok(time),
        _ => Err(io::Error::other(format!("{command:?}: {status}"))),
    }
}

/// Completes a book in this process and prints lines NAME NUMBER: the seconds of each part of
/// the work, and the most memory that it had, in bytes an order beside the input.
pub fn inside(path: &OsStr) -> io::Result<()> {
    let shares = command::book::timed(Path::new(path))?;
    let mut out = io::stdout().lock();
    for (name, time) in shares.times {
        // The time of these is summed over the threads.
        let threads = match name {
            "grouping" | "posting" | "completing" => cores(),
            _ => 1,
        };
        writeln!(out, "{name} {}", time.as_secs_f64() / threads as f64)?;
    }
    let status = fs::read_to_string("/proc/self/status").unwrap_or_default();
    let most = status.lines().find_map(|line| {
        let kilobytes = line.strip_prefix("VmHWM:")?.trim().strip_suffix(" kB")?;
        kilobytes.parse::<usize>().ok()
    });
    if let Some(most) = most {
        let beside = (1024 * most).saturating_sub(shares.input);
        writeln!(out, "bytes {}", beside as f64 / shares.orders.max(1) as f64)?;
    }
    Ok(())
}

/// The names of the parts that are told, and of those that make each.
const PARTS: [(&str, &[&str]); 4] = [
    (
        "reading, and splitting by order",
        &["reading", "splitting", "grouping"],
    ),
    ("posting", &["posting"]),
    ("completing", &["completing"]),
    ("merging and writing", &["merging", "writing"]),
];

impl Orders {
    /// The section of the report.
    pub fn write(&self, text: &mut String) -> fmt::Result {
        text.push_str(HEAD);
        let Self {
            orders,
            sort,
            once,
            tenfold,
            ..
        } = *self;
        writeln!(text, "| `sort`, {orders} orders, seconds | {sort:.2} | | |")?;
        writeln!(text, "| `book`, {orders} orders, seconds | {once:.2} | | |")?;
        let more = 10 * orders;
        writeln!(
            text,
            "| `book`, {more} orders, seconds | {tenfold:.2} | | |"
        )?;
        for (name, measured, goal) in [
            ("`book` to `sort`", Some(once / sort), OF_SORT),
            (
                "ten times the orders, times as long",
                Some(tenfold / once),
                TENFOLD,
            ),
            (
                "bytes an order beside the input",
                self.inside[0].bytes,
                BYTES,
            ),
            (
                "the same, ten times the orders",
                self.inside[1].bytes,
                BYTES,
            ),
        ] {
            let Some(measured) = measured else { continue };
            let shown = match measured < 100.0 {
                true => format!("{measured:.2}"),
                false => format!("{measured:.0}"),
            };
            writeln!(
                text,
                "| {name} | {shown} | {goal} | {} |",
                outcome(measured <= goal)
            )?;
        }
        text.push_str(SHARES);
        writeln!(text, "| | {orders} orders | ten times as many |")?;
        text.push_str("|---|--:|--:|\n");
        for (name, parts) in PARTS {
            write!(text, "| {name} |")?;
            for Inside { shares, .. } in &self.inside {
                let all: f64 = shares.iter().map(|(_, seconds)| seconds).sum();
                let of = shares
                    .iter()
                    .filter(|(name, _)| parts.contains(&name.as_str()));
                let part: f64 = of.map(|(_, seconds)| seconds).sum();
                write!(text, " {:.0} % |", 100.0 * part / all)?;
            }
            writeln!(text)?;
        }
        Ok(())
    }
}

const HEAD: &str = "
## A book of orders

The command `kieselbrot book` on a file of orders of 15 messages each, one a line, the lines
shuffled, and `LC_ALL=C sort --parallel=2` of the same file, in turn on the same cores; what
they print goes nowhere. Each figure is the least of 3 runs. One order in twenty can't be
completed, one in a hundred has a clash. The memory is the most that the process had, less
the file, which it holds whole.

| | measured | goal | |
|---|--:|--:|---|
";

const SHARES: &str = "
The shares of the work, by the clock on the wall; what the cores do side by side is divided
by their number.

";

#[cfg(test)]
mod tests {
    use super::*;

    /// Orders of 15 messages, of which one in twenty can't be completed and one in a hundred
    /// has a clash; each part of the work on them is one of those that are told.
    #[test]
    fn the_book_that_is_measured() {
        let book = Book::new(1000).expect("a file");
        let shares = command::book::timed(&book.0).expect("it is read");
        assert_eq!([shares.orders, shares.messages], [1000, 15_000]);
        assert_eq!(
            [shares.completed, shares.refused, shares.clashes],
            [950, 50, 10]
        );
        let mut told: Vec<&str> = PARTS
            .iter()
            .flat_map(|(_, parts)| *parts)
            .copied()
            .collect();
        told.sort_unstable();
        let mut timed: Vec<&str> = shares.times.iter().map(|(name, _)| *name).collect();
        timed.sort_unstable();
        assert_eq!(timed, told);
    }

    /// A goal that is missed is told.
    #[test]
    fn goals_are_told() {
        let inside = |bytes| Inside {
            bytes,
            shares: vec![("posting".to_owned(), 3.0), ("reading".to_owned(), 1.0)],
        };
        let orders = Orders {
            orders: 100_000,
            sort: 1.0,
            once: 0.6,
            tenfold: 6.0,
            inside: [inside(Some(700.0)), inside(None)],
        };
        let mut text = String::new();
        orders.write(&mut text).expect("a string");
        for line in [
            "| `book` to `sort` | 0.60 | 0.5 | missed |",
            "| ten times the orders, times as long | 10.00 | 12 | reached |",
            "| bytes an order beside the input | 700 | 1024 | reached |",
            "| posting | 75 % | 75 % |",
        ] {
            assert!(text.contains(&format!("\n{line}\n")), "{line}\n{text}");
        }
    }
}

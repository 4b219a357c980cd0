//! `times [ORDERS [RUNS]]` makes a book of so many orders of 15 messages each, shuffled, and
//! one of ten times as many; runs `sort` and `kieselbrot book` on them one after another, and
//! prints how long each took, their ratios, the memory beside the input, and the shares of
//! reading, posting and completing. `times --write ORDERS FILE` makes the book alone.
//!
//! A machine that does other work changes times, and ratios less; each run is printed.

use std::env;
use std::fmt::Write as _;
use std::fs::{self, File};
use std::io::{self, BufWriter, Write};
use std::path::{Path, PathBuf};
use std::process::{Command, ExitCode, Stdio};
use std::time::{Duration, Instant};

fn main() -> ExitCode {
    let arguments: Vec<String> = env::args().skip(1).collect();
    let arguments: Vec<&str> = arguments.iter().map(String::as_str).collect();
    let done = match arguments[..] {
        ["--inside", path] => inside(Path::new(path)),
        ["--write", orders, path] => {
            number(orders).and_then(|orders| write_book(orders, Path::new(path)))
        }
        [] => compare(100_000, 5),
        [orders] => number(orders).and_then(|orders| compare(orders, 5)),
        [orders, runs] => {
            number(orders).and_then(|orders| number(runs).and_then(|runs| compare(orders, runs)))
        }
        _ => Err(io::Error::other("usage: times [ORDERS [RUNS]]")),
    };
    match done {
        Ok(()) => ExitCode::SUCCESS,
        Err(error) => {
            let _ = writeln!(io::stderr(), "times: {error}");
            ExitCode::FAILURE
        }
    }
}

fn number(item: &str) -> io::Result<usize> {
    item.parse().map_err(io::Error::other)
}

/// The messages of an order: 15 lines. `#` stands for digits of the order's own; an order in
/// twenty can't be completed, and one in a hundred has a clash.
const MESSAGES: [&str; 15] = [
    "14 1 004525988",
    "14 2 004525987",
    "15 1 40102810845370000004",
    "17 1 03100643000000014800",
    "60 1 7701569734",
    "60 2 7701569743",
    "61 1 6730054024",
    "102 1 770301001",
    "103 1 772801001",
    "104 2 18201061201010000510",
    "104 1 18210102010011000110",
    "101 1 08",
    "101 2 ",
    "client 108 1 #",
    "105 1 45301000",
];

/// Writes a book of so many orders, its lines in any order.
fn write_book(orders: usize, path: &Path) -> io::Result<()> {
    let mut state = 1_u64;
    let mut below = |bound: usize| {
        // xorshift
        state ^= state << 13;
        state ^= state >> 7;
        state ^= state << 17;
        ((u128::from(state) * bound as u128) >> 64) as usize
    };
    let count = orders * MESSAGES.len();
    let mut lines: Vec<u32> = (0..u32::try_from(count).map_err(io::Error::other)?).collect();
    for last in (1..lines.len()).rev() {
        lines.swap(last, below(last + 1));
    }
    let mut out = BufWriter::with_capacity(1 << 20, File::create(path)?);
    let mut line = String::new();
    for number in lines {
        let (order, message) = (
            number as usize / MESSAGES.len(),
            number as usize % MESSAGES.len(),
        );
        line.clear();
        // Writing to a string never fails.
        let _ = write!(line, "N{order:08} ");
        match (order % 100, MESSAGES[message]) {
            (0 | 20 | 40 | 60 | 80, "104 2 18201061201010000510") => line += "104 2 0",
            (7, "60 1 7701569734") => line += "105 1 45302000",
            (_, message) => {
                let text = message.strip_suffix('#');
                line += text.unwrap_or(message);
                if text.is_some() {
                    let _ = write!(line, "{order}");
                }
            }
        }
        line.push('\n');
        out.write_all(line.as_bytes())?;
    }
    out.into_inner()?.sync_all()
}

/// The command beside this program.
fn beside() -> io::Result<PathBuf> {
    Ok(env::current_exe()?.with_file_name("kieselbrot"))
}

/// How long a program takes; what it prints goes nowhere.
fn run(command: &mut Command) -> io::Result<Duration> {
    let start = Instant::now();
    let mut program = command
        .stdout(Stdio::null())
        .stderr(Stdio::null())
        .spawn()?;
    let status = program.wait()?;
    let time = start.elapsed();
    match status.code() {
        Some(0 | 1 | 3) => Ok(time),
        _ => Err(io::Error::other(format!("{command:?}: {status}"))),
    }
}

/// Removes the file when it is dropped.
struct Book(PathBuf);

impl Drop for Book {
    fn drop(&mut self) {
        let _ = fs::remove_file(&self.0);
    }
}

fn book(orders: usize) -> io::Result<Book> {
    let name = format!("kieselbrot-book-{}-{orders}.txt", std::process::id());
    let book = Book(env::temp_dir().join(name));
    write_book(orders, &book.0)?;
    Ok(book)
}

fn compare(orders: usize, runs: usize) -> io::Result<()> {
    let (small, great) = (book(orders)?, book(10 * orders)?);
    let command = beside()?;
    let mut out = io::stdout();
    writeln!(out, "orders of 15 messages, seconds; ratio to sort; ten times as many, and how many times as long")?;
    for _ in 0..runs {
        let mut sort = Command::new("sort");
        let sort = run(sort.arg("--parallel=2").arg(&small.0).env("LC_ALL", "C"))?;
        let once = run(Command::new(&command).arg("book").arg(&small.0))?;
        let tenfold = run(Command::new(&command).arg("book").arg(&great.0))?;
        let again = run(Command::new(&command).arg("book").arg(&small.0))?;
        let mean = (once + again) / 2;
        writeln!(
            out,
            "sort {:.3}  book {:.3}  ratio {:.2}  tenfold {:.3}  times {:.1}",
            sort.as_secs_f64(),
            mean.as_secs_f64(),
            mean.as_secs_f64() / sort.as_secs_f64(),
            tenfold.as_secs_f64(),
            tenfold.as_secs_f64() / mean.as_secs_f64()
        )?;
    }
    for book in [&small, &great] {
        let program = env::current_exe()?;
        let inside = Command::new(program)
            .arg("--inside")
            .arg(&book.0)
            .output()?;
        out.write_all(&inside.stdout)?;
    }
    Ok(())
}

/// The shares of the work on a book, in this process, and the most memory that it had.
fn inside(path: &Path) -> io::Result<()> {
    let start = Instant::now();
    let shares = command::book::timed(path)?;
    let all = start.elapsed();
    let mut out = io::stdout();
    write!(out, "{} orders, {:.3} s:", shares.orders, all.as_secs_f64())?;
    for (name, time) in shares.times {
        write!(out, "  {name} {:.3}", time.as_secs_f64())?;
    }
    writeln!(out)?;
    let status = fs::read_to_string("/proc/self/status").unwrap_or_default();
    let most = status.lines().find_map(|line| {
        let kilobytes = line.strip_prefix("VmHWM:")?.trim().strip_suffix(" kB")?;
        kilobytes.parse::<usize>().ok()
    });
    if let Some(most) = most {
        let beside = (1024 * most).saturating_sub(shares.input);
        writeln!(
            out,
            "memory {} MB, input {} MB, beside it {} bytes an order",
            most / 1024,
            shares.input / (1 << 20),
            beside / shares.orders.max(1)
        )?;
    }
    Ok(())
}

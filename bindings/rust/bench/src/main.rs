//! The library and the second implementation, measured in one run.
//!
//! `bench FILE.md` prints the table, writes it to the file, and lets gnuplot draw a
//! chart beside it. Without a file it only prints. `bench --book ORDERS` measures and prints
//! the book of orders alone, of so many; the command `kieselbrot` must be built beside this
//! program. Standard error tells which row is measured.

#![deny(unsafe_code)]

mod book;
mod dates;
mod inputs;
mod measure;
mod orders;
mod report;
#[allow(unsafe_code)]
mod stack;

use std::cell::RefCell;
use std::env;
use std::ffi::OsString;
use std::fs;
use std::hint::black_box;
use std::io::{self, ErrorKind};
use std::path::Path;
use std::process::{Command, ExitCode};

use cases::{Charge, Draft, Parting, Pooling, Sharing, Sheet, DRAFT_SIZE, POOL_SIZE};
use dates::{Dated, ANOTHER, GIVEN};
use inputs::{Drafts, Proposal, Waiting};
use measure::{Goal, Row, NO_SLOWER};
use report::Report;

fn main() -> ExitCode {
    let arguments: Vec<OsString> = env::args_os().skip(1).collect();
    let done = match &arguments[..] {
        [inside, path] if inside == orders::INSIDE => orders::inside(path),
        [book, orders] if book == "--book" => print_book(&orders.to_string_lossy()),
        [] => print_all().map(drop),
        [path] => print_all().and_then(|report| store(&report, Path::new(path))),
        _ => Err(io::Error::other("usage: bench [FILE.md | --book ORDERS]")),
    };
    match done {
        Ok(()) => ExitCode::SUCCESS,
        Err(error) => {
            eprintln!("bench: {error}");
            ExitCode::FAILURE
        }
    }
}

fn print_book(orders: &str) -> io::Result<()> {
    let orders = orders.parse().map_err(io::Error::other)?;
    let mut text = String::new();
    // Writing to a string never fails.
    let _ = orders::measure(Some(orders))?.write(&mut text);
    print!("{text}");
    Ok(())
}

fn print_all() -> io::Result<Report> {
    let report = measure_all()?;
    print!("{}", report.markdown(None));
    Ok(report)
}

fn measure_all() -> io::Result<Report> {
    let mut random = inputs::random();
    let sheets = [
        ("check, an accepted sheet", inputs::accepted(&mut random)),
        ("check, a late broken rule (34)", inputs::late(&mut random)),
        ("check, mixed sheets", inputs::mixed(&mut random)),
    ];
    let mut rows = checks(&sheets, GIVEN);
    rows.push(post(
        "post, 15 messages to a fresh draft",
        inputs::messages(&mut random),
    ));
    let drafts = inputs::drafts(&mut random);
    rows.push(pretest(&drafts.full_or_hopeless));
    rows.extend(completions(&drafts, GIVEN));
    // Random numbers of their own, so that the inputs of the other rows stay as they
    // were.
    let mut other = inputs::random();
    let book = inputs::book(&mut random);
    let half_hopeless = inputs::half_hopeless_book(&mut other);
    rows.extend(book::rows(&book, &half_hopeless));
    rows.push(post(
        "post, 30 messages of version 2 of both parties to a fresh draft",
        inputs::messages_of_both(&mut inputs::random()),
    ));
    rows.push(take_up(inputs::proposals(&mut inputs::random())));
    rows.push(write_lines(inputs::with_lines(&mut inputs::random())));
    rows.push(read_lines(inputs::lines(&mut inputs::random())));
    rows.push(charge(inputs::charges(&mut inputs::random())));
    rows.push(part(inputs::parts(&mut inputs::random())));
    rows.push(shares(inputs::shares(&mut inputs::random())));
    rows.push(pool(
        "pool, 60 lines of 20 INNs",
        Goal::OfSecond(0.7),
        inputs::registers(&mut inputs::random(), 60, 20),
    ));
    rows.push(pool(
        "pool, 500 lines of 500 INNs",
        Goal::OfSecond(0.8),
        inputs::registers(&mut inputs::random(), 500, 500),
    ));
    rows.push(leave(inputs::payments(&mut inputs::random())));
    rows.extend(checks(&sheets, ANOTHER));
    rows.extend(completions(&drafts, ANOTHER));
    Ok(Report {
        rows,
        pools: pools(),
        growth: growth(
            inputs::growth(&mut random),
            inputs::uncaught_growth(&mut other),
        ),
        stack: stack::rows(&mut random),
        // Last: once the books were made, allocating is slower, and the second implementation does.
        orders: orders::measure(None)?,
    })
}

/// The rows of checks.
fn checks(sheets: &[(&str, Vec<Sheet>)], dated: Dated) -> Vec<Row> {
    let row = |(name, sheets): &(&str, Vec<Sheet>)| check(name, 0.5, sheets, dated);
    sheets.iter().map(row).collect()
}

/// The rows of completions, and of quick ones beside them.
fn completions(drafts: &Drafts, dated: Dated) -> Vec<Row> {
    let complete = |what: &str, goal, drafts: &[Draft]| {
        complete(
            format!("complete, {what}{}", dated.name),
            goal,
            drafts,
            dated,
        )
    };
    // The library's completion is quick; the second implementation has a search of each kind.
    let both = |what: &str, goal, drafts: &[Draft]| {
        let completed = complete(what, goal, drafts);
        let name = format!("quick, {what}{}", dated.name);
        [completed, quick(name, NO_SLOWER, drafts, dated)]
    };
    let full = both("nothing blank", Goal::OfSecond(0.45), &drafts.full);
    let as_full = Goal::OfOwn {
        part: 1.2,
        name: "nothing blank",
        library: full[0].library,
    };
    let mut rows = full.to_vec();
    rows.extend(both("count 97", NO_SLOWER, &drafts.count_97));
    rows.extend(both("count 433", NO_SLOWER, &drafts.count_433));
    rows.push(complete(
        "hopeless, 1,056 fillings",
        Goal::OfSecond(0.2),
        &drafts.hopeless,
    ));
    rows.extend(both(
        "hopeless from the start, 1,056 fillings",
        as_full,
        &drafts.hopeless_from_the_start,
    ));
    rows.extend(both(
        "hopeless, not caught by the test",
        Goal::OfSecond(0.2),
        &drafts.uncaught,
    ));
    rows
}

type Growth = Vec<(usize, Vec<Draft>)>;

/// The completions of both for each count of fillings.
fn growth(caught: Growth, uncaught: Growth) -> Vec<(usize, Row, Row)> {
    let both = caught.into_iter().zip(uncaught);
    both.map(|((fillings, caught), (_, uncaught))| {
        let row = |what, drafts: &[Draft]| {
            let name = format!("complete, none of {fillings}, {what}");
            complete(name, NO_SLOWER, drafts, GIVEN)
        };
        let caught = row("hopeless from the start", &caught);
        (fillings, caught, row("not caught by the test", &uncaught))
    })
    .collect()
}

fn check(name: &str, goal: f64, sheets: &[Sheet], dated: Dated) -> Row {
    Row::measure(
        format!("{name}{}", dated.name),
        Goal::OfSecond(goal),
        sheets,
        |sheet| dated.check(sheet),
        |sheet| dated.check_by_second(sheet),
    )
}

fn post(name: &str, lists: Vec<Vec<Vec<u8>>>) -> Row {
    Row::measure(
        name,
        Goal::OfSecond(0.7),
        &lists,
        |list| {
            let mut draft = [0xEE; DRAFT_SIZE];
            let fresh = kieselbrot::fresh(&mut draft);
            let post = |message: &&Vec<u8>| kieselbrot::post(&mut draft, message).is_ok();
            let stored = list.iter().filter(post).count();
            (fresh, stored, draft)
        },
        |list| {
            let mut draft = [0xEE; DRAFT_SIZE];
            let fresh = reference::fresh(&mut draft);
            let post = |message: &&Vec<u8>| reference::post(&mut draft, message).is_ok();
            let stored = list.iter().filter(post).count();
            (fresh, stored, draft)
        },
    )
}

fn pretest(drafts: &[Draft]) -> Row {
    Row::measure(
        "pretest, hopeless from the start or nothing blank",
        NO_SLOWER,
        drafts,
        |draft| kieselbrot::pretest(draft),
        |draft| reference::pretest(draft),
    )
}

fn complete(name: String, goal: Goal, drafts: &[Draft], dated: Dated) -> Row {
    into_one_sheet(
        name,
        goal,
        drafts,
        |draft, sheet| dated.complete(draft, sheet),
        |draft, sheet| dated.complete_by_second(draft, sheet),
    )
}

fn quick(name: String, goal: Goal, drafts: &[Draft], dated: Dated) -> Row {
    into_one_sheet(
        name,
        goal,
        drafts,
        |draft, sheet| dated.quick(draft, sheet),
        |draft, sheet| dated.quick_by_second(draft, sheet),
    )
}

/// One sheet for all calls: the caller has no need to clear or to copy it.
fn into_one_sheet<A, B>(
    name: String,
    goal: Goal,
    drafts: &[Draft],
    library: impl Fn(&Draft, &mut [u8]) -> A,
    reference: impl Fn(&Draft, &mut [u8]) -> B,
) -> Row {
    let sheet = RefCell::new([0; 390]);
    Row::measure(
        name,
        goal,
        drafts,
        |draft| library(draft, &mut sheet.borrow_mut()[..]),
        |draft| reference(draft, &mut sheet.borrow_mut()[..]),
    )
}

/// Each call has a copy of the draft: what is taken up is given afterwards.
fn take_up(proposals: Vec<Proposal>) -> Row {
    Row::measure(
        "take up, 7 values",
        NO_SLOWER,
        &proposals,
        |proposal| {
            let mut draft = proposal.draft;
            let answer = kieselbrot::take_up(&mut draft, &proposal.sheet, proposal.set);
            black_box(&draft);
            answer
        },
        |proposal| {
            let mut draft = proposal.draft;
            let answer = reference::take_up(&mut draft, &proposal.sheet, proposal.set);
            black_box(&draft);
            answer
        },
    )
}

/// One buffer for all calls.
fn write_lines(sheets: Vec<Sheet>) -> Row {
    let buffer = RefCell::new([0; kieselbrot::LINES_BLOCK_MAX]);
    Row::measure(
        "writing MT103 lines",
        NO_SLOWER,
        &sheets,
        |sheet| GIVEN.write_lines(sheet, &mut buffer.borrow_mut()[..]),
        |sheet| GIVEN.write_lines_by_second(sheet, &mut buffer.borrow_mut()[..]),
    )
}

/// One sheet for all calls.
fn read_lines(blocks: Vec<Vec<u8>>) -> Row {
    let sheet = RefCell::new([0; 390]);
    Row::measure(
        "reading MT103 lines",
        NO_SLOWER,
        &blocks,
        |block| kieselbrot::read_lines(block, &mut sheet.borrow_mut()[..]),
        |block| reference::read_lines(block, &mut sheet.borrow_mut()[..]),
    )
}

fn charge(charges: Vec<Charge>) -> Row {
    Row::measure(
        "charge, in range",
        NO_SLOWER,
        &charges,
        |charge| kieselbrot::charge(charge.amount, charge.rate, charge.least, charge.greatest),
        |charge| reference::charge(charge.amount, charge.rate, charge.least, charge.greatest),
    )
}

fn part(parts: Vec<Parting>) -> Row {
    Row::measure(
        "part of a year, in range",
        NO_SLOWER,
        &parts,
        |parting| kieselbrot::part(parting.amount, parting.days, parting.year),
        |parting| reference::part(parting.amount, parting.days, parting.year),
    )
}

fn shares(shares: Vec<Sharing>) -> Row {
    Row::measure(
        "shares, 12 periods, into lent places",
        NO_SLOWER,
        &shares,
        |sharing| {
            let mut places = [0; kieselbrot::SHARE_PLACES];
            let Sharing {
                amount,
                year,
                ref periods,
            } = *sharing;
            let answer = kieselbrot::shares_into(amount, year, periods, &mut places);
            // Seen where they are: the caller has no need to copy them.
            black_box(&places);
            answer
        },
        |sharing| reference::shares(sharing.amount, sharing.year, &sharing.periods),
    )
}

fn pool(name: impl Into<String>, goal: Goal, registers: Vec<Pooling>) -> Row {
    // One output for all calls: the caller has no need to clear it.
    let output = RefCell::new([0; POOL_SIZE]);
    Row::measure(
        name,
        goal,
        &registers,
        |pooling| {
            let output = &mut output.borrow_mut()[..];
            kieselbrot::pool(&pooling.register, pooling.amount, output)
        },
        |pooling| {
            let output = &mut output.borrow_mut()[..];
            reference::pool(&pooling.register, pooling.amount, output)
        },
    )
}

/// Pooling by the number of lines, each of its own INN.
fn pools() -> Vec<(usize, Row)> {
    let random = &mut inputs::random();
    [1, 60, 125, 250, 500]
        .map(|lines| {
            let registers = inputs::registers(random, lines, lines);
            let name = format!("pool, {lines} lines, by the number of lines");
            (lines, pool(name, NO_SLOWER, registers))
        })
        .into()
}

fn leave(waiting: Vec<Waiting>) -> Row {
    Row::measure(
        "leave, 64 payments",
        Goal::OfSecond(1.5),
        &waiting,
        |waiting| kieselbrot::leave(waiting.balance, &waiting.library),
        |waiting| reference::leave(waiting.balance, &waiting.reference),
    )
}

/// Writes the table, then the chart that is drawn from it.
fn store(report: &Report, path: &Path) -> io::Result<()> {
    fs::write(path, report.markdown(None))?;
    let chart = path.with_extension("svg");
    if !draw(path, &chart)? {
        println!("\nNo chart: gnuplot is missing.");
        return Ok(());
    }
    let name = chart.file_name().map(|name| name.to_string_lossy());
    fs::write(path, report.markdown(name.as_deref()))
}

/// Draws the chart of a table; false if there is no gnuplot on the machine.
fn draw(table: &Path, chart: &Path) -> io::Result<bool> {
    const SCRIPT: &str = concat!(env!("CARGO_MANIFEST_DIR"), "/chart.gp");
    let mut gnuplot = Command::new("gnuplot");
    match gnuplot.args(["-c", SCRIPT]).args([table, chart]).status() {
        Ok(status) if status.success() => Ok(true),
        Ok(status) => Err(io::Error::other(format!("gnuplot: {status}"))),
        Err(error) if error.kind() == ErrorKind::NotFound => Ok(false),
        Err(error) => Err(error),
    }
}

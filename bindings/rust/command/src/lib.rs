//! The command `kieselbrot`: one order, a whole book, a page for the client.
//!
//! The proved library decides. This crate reads files, asks it and writes what it answers,
//! in words, as JSON or as a page. Files are UTF-8; texts go to the library in Windows-1251.
//! Input of any bytes gets an answer, and what can't be written is told.

#![forbid(unsafe_code)]
#![warn(missing_docs)]

mod amounts;
mod arguments;
pub mod book;
mod causes;
mod complete;
mod dates;
mod gather;
mod help;
mod input;
mod json;
mod page;
mod queues;
mod sheets;
mod shown;

use std::ffi::OsString;
use std::fmt::Display;
use std::io::{self, Write};
use std::process::ExitCode;

/// What the command ends with.
#[derive(Clone, Copy, Debug, PartialEq, Eq)]
pub enum Status {
    /// 0: done, and nothing to look at.
    Done,
    /// 1: the answer is a refusal.
    Refused,
    /// 2: usage, or what can't be read or written.
    Failed,
    /// 3: completed, but messages clash or don't read.
    Flawed,
}

impl From<Status> for ExitCode {
    fn from(status: Status) -> Self {
        Self::from(match status {
            Status::Done => 0,
            Status::Refused => 1,
            Status::Failed => 2,
            Status::Flawed => 3,
        })
    }
}

/// Why nothing is answered.
#[derive(Debug)]
enum Failure {
    /// The arguments are wrong.
    Usage(String),
    /// A file can't be read, or its lines can't.
    Input(String),
    /// The answer can't be written.
    Output(io::Error),
}

impl From<io::Error> for Failure {
    fn from(error: io::Error) -> Self {
        Self::Output(error)
    }
}

type Answer = Result<Status, Failure>;

/// Runs the command with these arguments, the program's name left out.
#[must_use]
pub fn run(arguments: Vec<OsString>) -> Status {
    let mut arguments = arguments.into_iter();
    let first = arguments.next().unwrap_or_default();
    let rest: Vec<OsString> = arguments.collect();
    let subcommand = first.to_string_lossy();
    match answer(&subcommand, &rest) {
        Ok(status) => status,
        Err(failure) => {
            tell(&match failure {
                Failure::Usage(what) => match help::of(&subcommand) {
                    Some(_) => format!(
                        "kieselbrot {subcommand}: {what}; see kieselbrot {subcommand} --help"
                    ),
                    None => format!("kieselbrot: {what}; see kieselbrot --help"),
                },
                Failure::Input(what) => what,
                Failure::Output(error) => format!("kieselbrot: standard output: {error}"),
            });
            Status::Failed
        }
    }
}

fn answer(subcommand: &str, rest: &[OsString]) -> Answer {
    if subcommand == "--version" {
        return print(format_args!("kieselbrot {}\n", env!("CARGO_PKG_VERSION")));
    }
    if subcommand == "--help" {
        return print(help::ALL);
    }
    let Some(help) = help::of(subcommand) else {
        return Err(Failure::Usage(match subcommand {
            "" => "a subcommand is missing".to_owned(),
            _ => format!("\"{}\" is no subcommand", shown::short(subcommand)),
        }));
    };
    if arguments::asks_for_help(rest) {
        return print(format_args!("{help}\n{}", help::STATUS));
    }
    match subcommand {
        "complete" => complete::run(rest),
        "book" => book::run(rest),
        "check" => sheets::check(rest),
        "swift" => sheets::swift(rest),
        "charge" => amounts::charge(rest),
        "part" => amounts::part(rest),
        "shares" => amounts::shares(rest),
        "register" => queues::register(rest),
        _ => queues::leave(rest),
    }
}

/// Writes all of a text to standard output.
fn print(text: impl Display) -> Answer {
    write_all(text.to_string().as_bytes())?;
    Ok(Status::Done)
}

/// Writes bytes to standard output, and all that it holds back.
fn write_all(bytes: &[u8]) -> io::Result<()> {
    let mut out = io::stdout().lock();
    out.write_all(bytes)?;
    out.flush()
}

/// Writes a line to standard error; where that can't be written, nobody can be told.
fn tell(line: &str) {
    let _ = writeln!(io::stderr().lock(), "{line}");
}

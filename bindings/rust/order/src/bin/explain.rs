//! `explain` reads messages end to end from standard input, as many bytes as budgetorder does,
//! posts them to a fresh draft, and says in words what became of them, whether the order can be
//! completed at the program's date, and all that is in the way; then it shows where each field
//! comes from. `explain FILE` does so for an order file, and names its lines.
//!
//! If standard input has more bytes than budgetorder reads, it says on standard error that the
//! rest is left unread.

use std::env;
use std::ffi::OsStr;
use std::fs;
use std::io::{self, Read, Write};
use std::path::Path;
use std::process::ExitCode;

use kieselbrot::words;

fn main() -> ExitCode {
    let mut arguments = env::args_os().skip(1);
    let told = match (arguments.next(), arguments.next()) {
        (None, _) => explain_input(),
        (Some(path), None) => explain_file(&path),
        (Some(_), Some(_)) => Err("usage: explain [FILE]".to_owned()),
    };
    let written = told.and_then(|told| {
        let written = writeln!(io::stdout(), "{told}");
        written.map_err(|error| format!("standard output: {error}"))
    });
    match written {
        Ok(()) => ExitCode::SUCCESS,
        Err(error) => {
            eprintln!("{error}");
            ExitCode::FAILURE
        }
    }
}

fn explain_file(path: &OsStr) -> Result<String, String> {
    let path = Path::new(path);
    let name = path.display();
    let order = fs::read(path).map_err(|error| format!("{name}: {error}"))?;
    let numbered = order::numbered_messages(&order);
    let (messages, lines) = numbered.map_err(|wrong| order::shown(path, &wrong))?;
    Ok(words::order(&messages, &lines, order::TERMS))
}

fn explain_input() -> Result<String, String> {
    let mut messages = Vec::new();
    let mut input = io::stdin().lock();
    let read = input
        .by_ref()
        .take(order::ORDER_MAX as u64)
        .read_to_end(&mut messages);
    let left = read.and_then(|_| io::copy(&mut input, &mut io::sink()));
    let left = left.map_err(|error| format!("standard input: {error}"))?;
    if left > 0 {
        let bytes = if left == 1 { "byte is" } else { "bytes are" };
        eprintln!(
            "standard input: {left} {bytes} left unread, behind the {} that budgetorder reads",
            order::ORDER_MAX
        );
    }
    Ok(words::order(&messages, &[], order::TERMS))
}

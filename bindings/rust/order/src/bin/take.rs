//! `take FILE FIELD ..` completes the order in a file at the program's date and takes up what
//! is proposed for these fields: it writes the lines FIELD REVISION TEXT that record it as the
//! adviser's, to be appended to the file. If a line or a field is wrong, the order can't be completed, or a
//! field can't take up a value, it says so and writes nothing.

use std::env;
use std::ffi::OsString;
use std::fs;
use std::io::{self, Write};
use std::path::Path;
use std::process::ExitCode;

fn main() -> ExitCode {
    let arguments: Vec<OsString> = env::args_os().skip(1).collect();
    let [path, fields @ ..] = &arguments[..] else {
        return fail(USAGE);
    };
    if fields.is_empty() {
        return fail(USAGE);
    }
    match take(Path::new(path), fields) {
        Ok(lines) => match io::stdout().write_all(&lines) {
            Ok(()) => ExitCode::SUCCESS,
            Err(error) => fail(&format!("standard output: {error}")),
        },
        Err(error) => fail(&error),
    }
}

const USAGE: &str = "usage: take FILE FIELD ..";

fn fail(error: &str) -> ExitCode {
    eprintln!("{error}");
    ExitCode::FAILURE
}

/// The lines to append to the file, or what is wrong.
fn take(path: &Path, fields: &[OsString]) -> Result<Vec<u8>, String> {
    let fields = fields
        .iter()
        .map(|item| order::field(&item.to_string_lossy()));
    let fields = fields.collect::<Result<Vec<u8>, _>>();
    let fields = fields.map_err(|mistake| mistake.to_string())?;
    let name = path.display();
    let mut order = fs::read(path).map_err(|error| format!("{name}: {error}"))?;
    let messages = messages(path, &order)?;
    let lines = order::take_up(&order::draft(&messages), &fields);
    let lines = lines.map_err(|words| format!("{name}: {words}"))?;
    let mut appended = Vec::new();
    // The last line of the file may have no end.
    if !matches!(order.last(), None | Some(b'\n')) {
        appended.push(b'\n');
    }
    for line in lines {
        appended.extend(format!("{line}\n").bytes());
    }
    // The order may get too long.
    order.extend(&appended);
    self::messages(path, &order)?;
    Ok(appended)
}

fn messages(path: &Path, order: &[u8]) -> Result<Vec<u8>, String> {
    order::messages(order).map_err(|wrong| order::shown(path, &wrong))
}

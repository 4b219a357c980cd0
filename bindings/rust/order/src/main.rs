//! `order FILE` writes the messages of an order file to standard output. If a
//! line is wrong, it says which and why, and writes nothing.

use std::env;
use std::fs;
use std::io::{self, Write};
use std::path::Path;
use std::process::ExitCode;

fn main() -> ExitCode {
    let mut arguments = env::args_os().skip(1);
    let (Some(path), None) = (arguments.next(), arguments.next()) else {
        return fail("usage: order FILE");
    };
    match messages(Path::new(&path)) {
        Ok(messages) => match io::stdout().write_all(&messages) {
            Ok(()) => ExitCode::SUCCESS,
            Err(error) => fail(&format!("standard output: {error}")),
        },
        Err(errors) => fail(&errors),
    }
}

fn fail(error: &str) -> ExitCode {
    eprintln!("{error}");
    ExitCode::FAILURE
}

/// The messages of the file, or what is wrong with it, a line for each mistake.
fn messages(path: &Path) -> Result<Vec<u8>, String> {
    let name = path.display();
    let order = fs::read(path).map_err(|error| format!("{name}: {error}"))?;
    order::messages(&order).map_err(|wrong| order::shown(path, &wrong))
}

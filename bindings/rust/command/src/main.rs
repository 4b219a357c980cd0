//! The command `kieselbrot`; `kieselbrot --help` says what it does.

use std::env;
use std::process::ExitCode;

fn main() -> ExitCode {
    command::run(env::args_os().skip(1).collect()).into()
}

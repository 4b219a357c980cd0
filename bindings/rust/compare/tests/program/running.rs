//! Runs the program `budgetorder` as it was built.

use std::env;
use std::io::{self, ErrorKind, Write};
use std::path::{Path, PathBuf};
use std::process::{Child, ChildStdin, Command, Stdio};
use std::thread;
use std::time::Duration;

const BUILT: &str = concat!(
    env!("CARGO_MANIFEST_DIR"),
    "/../../../target/bin/budgetorder"
);

/// Where the program is: `KIESELBROT_PROGRAM`, or where the repository builds it.
pub fn path() -> PathBuf {
    let path = env::var_os("KIESELBROT_PROGRAM").map_or(BUILT.into(), PathBuf::from);
    assert!(
        path.is_file(),
        "the program is missing: {}. `make target/bin/budgetorder` builds it; KIESELBROT_PROGRAM gives another place",
        path.display()
    );
    path
}

/// What the program says on standard error where input follows that it does not read.
const UNREAD: &str = "budgetorder: input past 32,768 bytes was not read\n";

/// How many bytes the program reads.
pub const INPUT_MAX: usize = 32_768;

/// What the program writes to standard output for this input; it says whether some of it
/// was not read.
pub fn run(input: &[u8]) -> Vec<u8> {
    let (output, told) = run_with(Command::new(path()), |stdin| write(stdin, input));
    assert_eq!(told, if INPUT_MAX < input.len() { UNREAD } else { "" });
    output
}

/// Long enough for the program to start, and to wait for its input.
const START: Duration = Duration::from_millis(50);

/// What the program writes if its input comes in pieces of these sizes, the rest
/// in one, with a pause after each. The first comes when the program waits for it.
pub fn run_in_pieces(
    input: &[u8],
    sizes: impl IntoIterator<Item = usize> + Send,
    pause: Duration,
) -> Vec<u8> {
    let (output, told) = run_with(Command::new(path()), |stdin| {
        thread::sleep(START);
        let mut rest = input;
        for size in sizes {
            let (piece, behind) = rest.split_at(size.min(rest.len()));
            write(stdin, piece);
            thread::sleep(pause);
            rest = behind;
        }
        write(stdin, rest);
    });
    assert_eq!(told, "");
    output
}

/// What a command that runs the program writes to standard output and to standard error,
/// with its standard input given by `give`, which ends it by returning. The command must
/// succeed.
pub fn run_with(
    mut command: Command,
    give: impl FnOnce(&mut ChildStdin) + Send,
) -> (Vec<u8>, String) {
    let mut child: Child = command
        .stdin(Stdio::piped())
        .stdout(Stdio::piped())
        .stderr(Stdio::piped())
        .spawn()
        .unwrap_or_else(|error| panic!("{}: {error}", Path::new(command.get_program()).display()));
    let mut stdin = child.stdin.take().expect("standard input is a pipe");
    let output = thread::scope(|scope| {
        scope.spawn(move || give(&mut stdin));
        child.wait_with_output().expect("the program's output")
    });
    assert!(output.status.success(), "{}", output.status);
    let told = String::from_utf8(output.stderr).expect("UTF-8");
    (output.stdout, told)
}

/// Writes as much as the program reads: it may end before the input does.
pub fn write(stdin: &mut ChildStdin, bytes: &[u8]) {
    let written: io::Result<()> = stdin.write_all(bytes);
    if let Err(error) = written {
        assert_eq!(error.kind(), ErrorKind::BrokenPipe, "{error}");
    }
}

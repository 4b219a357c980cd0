//! Help, versions, wrong usage, and outputs that can't be written.

use std::fs::OpenOptions;
use std::process::{Command, Stdio};

use crate::running::{program, run, run_on, sample, Try};

const SUBCOMMANDS: [&str; 9] = [
    "complete", "book", "check", "swift", "charge", "part", "shares", "register", "leave",
];

#[test]
fn help_and_version() {
    let status = "Exit status: 0 done, and nothing to look at; 1 the answer is a refusal; 2 usage, \
                  or what\ncan't be read or written; 3 completed, but messages clash or don't read.\n";
    let all = run(&["--help"]);
    assert_eq!(all.status, 0);
    assert!(all.out.ends_with(status));
    for subcommand in SUBCOMMANDS {
        assert!(
            all.out.contains(&format!("\n  {subcommand} ")),
            "{subcommand}"
        );
        for arguments in [
            &[subcommand, "--help"][..],
            &[subcommand, "x", "--json", "--help"],
        ] {
            let ran = run(arguments);
            assert_eq!((ran.status, &*ran.error), (0, ""));
            assert!(
                ran.out
                    .starts_with(&format!("Usage: kieselbrot {subcommand} [")),
                "{}",
                ran.out
            );
            assert!(ran.out.contains("--json"));
            assert!(ran.out.ends_with(status));
        }
    }
    let version = kieselbrot::VERSION;
    assert_eq!(run(&["--version"]).out, format!("kieselbrot {version}\n"));
}

#[test]
fn wrong_usage() {
    for (arguments, told) in [
        (
            &[][..],
            "kieselbrot: a subcommand is missing; see kieselbrot --help\n",
        ),
        (
            &["x"],
            "kieselbrot: \"x\" is no subcommand; see kieselbrot --help\n",
        ),
        (
            &["--json"],
            "kieselbrot: \"--json\" is no subcommand; see kieselbrot --help\n",
        ),
        (
            &["complete"],
            "kieselbrot complete: ORDER is missing; see kieselbrot complete --help\n",
        ),
        (
            &["book", "a", "b"],
            "kieselbrot book: one FILE is wanted; see kieselbrot book --help\n",
        ),
        (
            &["complete", "--html", "--json", "a"],
            "kieselbrot complete: --html and --json exclude each other; see kieselbrot complete --help\n",
        ),
        (
            &["check", "--html", "a"],
            "kieselbrot check: \"--html\" is no option; see kieselbrot check --help\n",
        ),
        (
            &["part", "1k", "2", "x"],
            "kieselbrot part: \"x\" is no number of days; see kieselbrot part --help\n",
        ),
    ] {
        let ran = run(arguments);
        assert_eq!((ran.status, &*ran.out, &*ran.error), (2, "", told));
    }
}

#[test]
fn what_can_not_be_read() {
    let directory = std::env::temp_dir();
    let directory = directory.to_str().expect("UTF-8");
    for path in ["no such file", directory, "\u{1B}"] {
        for arguments in [
            &["complete", path][..],
            &["book", path],
            &["check", path],
            &["swift", path],
            &["swift", "--read", path],
            &["register", path, "--amount", "1k"],
            &["leave", path, "--balance", "1k"],
        ] {
            let ran = run(arguments);
            assert_eq!((ran.status, &*ran.out), (2, ""), "{arguments:?}");
            let shown = path.replace('\u{1B}', "␛");
            assert!(
                ran.error.starts_with(&format!("{shown}: ")),
                "{}",
                ran.error
            );
        }
    }
}

/// What the command ends with when its output goes there.
fn status_into(arguments: &[&str], out: Stdio) -> (Option<i32>, String) {
    let command = Command::new(program())
        .args(arguments)
        .stdin(Stdio::null())
        .stdout(out)
        .stderr(Stdio::piped())
        .spawn()
        .expect("the command runs");
    let output = command.wait_with_output().expect("it ends");
    let error = String::from_utf8(output.stderr).expect("UTF-8");
    (output.status.code(), error)
}

/// On a full disk, and into a pipe that nobody reads, the status is 2.
#[test]
fn what_can_not_be_written() {
    let order = sample("order.txt");
    let order = order.to_str().expect("UTF-8");
    let sheet = Try::new(b"14 004525987\n");
    let lines: String = (0..20_000)
        .map(|order| format!("{order} 14 1 1\n"))
        .collect();
    let book = Try::new(lines.as_bytes());
    let all = [
        &["--help"][..],
        &["--version"],
        &["complete", "--help"],
        &["complete", order],
        &["complete", "--json", order],
        &["complete", "--html", order],
        &["check", sheet.path()],
        &["book", book.path()],
        &["book", "--json", book.path()],
        &["charge", "1.00", "1", "0k", "1k"],
        &["part", "1.00", "1", "365"],
        &["shares", "1.00", "365", "365"],
        &["leave", "-", "--balance", "0k"],
        &["swift", "--json", sheet.path()],
    ];
    for arguments in all {
        let full = OpenOptions::new().write(true).open("/dev/full");
        if let Ok(full) = full {
            let (status, error) = status_into(arguments, full.into());
            assert_eq!(status, Some(2), "{arguments:?}");
            assert!(
                error.starts_with("kieselbrot: standard output: "),
                "{error}"
            );
        }
    }
    for arguments in all {
        let (reader, writer) = std::io::pipe().expect("a pipe");
        drop(reader);
        let (status, error) = status_into(arguments, writer.into());
        assert_eq!(status, Some(2), "{arguments:?}");
        assert!(!error.contains("panicked"), "{error}");
    }
}

/// Standard error that can't be written changes nothing.
#[test]
fn errors_that_can_not_be_written() {
    let Ok(full) = OpenOptions::new().write(true).open("/dev/full") else {
        return;
    };
    let status = Command::new(program()).arg("x").stderr(full).status();
    assert_eq!(status.expect("it runs").code(), Some(2));
}

#[test]
fn a_dash_is_standard_input() {
    let ran = run_on(&["complete", "--", "-"], b"14 1 1\n");
    assert_eq!(ran.status, 1);
    let named = run(&["complete", "./-"]);
    assert_eq!(named.status, 2);
}

//! The manual page: every example that it shows prints what it shows.

use std::env;
use std::fs;
use std::path::Path;
use std::process::Command;

use crate::running::program;

const MANUAL: &str = include_str!("../../kieselbrot.1");

/// How signs are written in an example.
const SIGNS: [(&str, &str); 5] = [
    ("\\", "\\e"),
    ("-", "\\-"),
    ("'", "\\(aq"),
    ("^", "\\(ha"),
    ("~", "\\(ti"),
];

/// The text of a line of an example.
fn plain(line: &str) -> String {
    let line = line.strip_prefix("\\&").unwrap_or(line).to_owned();
    let signs = SIGNS.iter().rev();
    signs.fold(line, |line, (sign, written)| line.replace(written, sign))
}

/// A line of an example as the manual has it.
fn written(line: &str) -> String {
    let line = SIGNS.iter().fold(line.to_owned(), |line, (sign, written)| {
        line.replace(sign, written)
    });
    match line.starts_with('.') {
        true => format!("\\&{line}"),
        false => line,
    }
}

/// What is typed in the examples.
fn typed() -> impl Iterator<Item = String> {
    let blocks = MANUAL.split("\n.EX\n").skip(1);
    let blocks = blocks.map(|block| block.split_once("\n.EE\n").expect("an example ends").0);
    let lines = blocks.flat_map(str::lines).map(plain);
    lines.filter_map(|line| line.strip_prefix("$ ").map(str::to_owned))
}

/// What a typed line prints.
fn printed(typed: &str) -> String {
    let samples = Path::new(env!("CARGO_MANIFEST_DIR")).join("../../samples");
    let program = program();
    let directory = program.parent().expect("a directory");
    let others = env::var("PATH").unwrap_or_default();
    let output = Command::new("sh")
        .args(["-c", typed])
        .current_dir(samples)
        .env("PATH", format!("{}:{others}", directory.display()))
        .output()
        .expect("a shell");
    String::from_utf8([output.stdout, output.stderr].concat()).expect("UTF-8")
}

/// The manual with what its examples print now.
fn printed_anew() -> String {
    let mut manual = String::new();
    let mut is_example = false;
    for line in MANUAL.lines() {
        is_example = line != ".EE" && (is_example || line == ".EX");
        let plain = plain(line);
        let typed = plain.strip_prefix("$ ").filter(|_| is_example);
        if is_example && typed.is_none() && line != ".EX" {
            continue;
        }
        manual += &format!("{line}\n");
        if let Some(typed) = typed {
            let printed = printed(typed);
            printed
                .lines()
                .for_each(|line| manual += &format!("{}\n", written(line)));
        }
    }
    manual
}

/// With `MANUAL=write` the examples of the manual are written anew; look at what changed.
#[test]
fn examples_print_what_they_show() {
    let manual = printed_anew();
    if env::var_os("MANUAL").is_some_and(|value| value == "write") {
        let path = Path::new(env!("CARGO_MANIFEST_DIR")).join("kieselbrot.1");
        fs::write(path, &manual).expect("the manual is written");
    } else {
        for (shown, printed) in MANUAL.lines().zip(manual.lines()) {
            assert_eq!(shown, printed, "MANUAL=write writes the examples anew");
        }
        assert_eq!(MANUAL, manual);
    }
    assert!(typed().count() >= 12);
}

/// Each subcommand and option has its place.
#[test]
fn all_is_there() {
    let examples: String = typed().map(|typed| typed + "\n").collect();
    for subcommand in [
        "complete", "book", "check", "swift", "charge", "part", "shares", "register", "leave",
    ] {
        assert!(
            MANUAL.contains(&format!("\n.SS {subcommand}\n")),
            "{subcommand}"
        );
        assert!(
            examples.contains(&format!("kieselbrot {subcommand} ")),
            "{subcommand}"
        );
    }
    for option in [
        "\\-\\-json",
        "\\-\\-html",
        "\\-\\-date",
        "\\-\\-first32",
        "\\-\\-first33",
        "\\-\\-last02",
        "\\-\\-read",
        "\\-\\-amount",
        "\\-\\-balance",
        "\\-\\-help",
        "\\-\\-version",
    ] {
        assert!(MANUAL.contains(option), "{option}");
    }
    assert!(MANUAL.contains("\n.SH EXIT STATUS\n"));
    let version = format!("kieselbrot {}", env!("CARGO_PKG_VERSION"));
    assert!(MANUAL
        .lines()
        .next()
        .is_some_and(|head| head.contains(&version)));
}

//! The stored input and output of the repository's example programs.
//!
//! `write DIR` writes stdin and stdout of each program below DIR, `check DIR` compares
//! them with what they should be. Each case of the input is one kind byte, a two-byte
//! big-endian length and that many bytes; its output, one line, the lines of a
//! report, MT103 lines or pooled lines, comes from the second implementation.

use std::env;
use std::fs;
use std::path::Path;
use std::process::ExitCode;

mod amounts;
mod asked;
mod dates;
mod drafts;
mod example;
mod lines;
mod messages;
mod parties;
mod quick;
mod reports;
mod sheets;
mod take_up;

use example::Example;

fn main() -> ExitCode {
    let arguments: Vec<String> = env::args().skip(1).collect();
    let arguments: Vec<&str> = arguments.iter().map(String::as_str).collect();
    let outcome = match arguments[..] {
        ["write", directory] => write(Path::new(directory)),
        ["check", directory] => check(Path::new(directory)),
        _ => Err("usage: write DIR | check DIR".into()),
    };
    match outcome {
        Ok(()) => ExitCode::SUCCESS,
        Err(error) => {
            eprintln!("{error}");
            ExitCode::FAILURE
        }
    }
}

/// All examples, in the order in which they are stored.
fn all() -> Vec<Example> {
    [
        sheets::all(),
        messages::all(),
        reports::all(),
        dates::all(),
        quick::all(),
        take_up::all(),
        lines::all(),
        parties::all(),
        drafts::all(),
        amounts::all(),
        asked::all(),
    ]
    .concat()
}

/// The programs, each with its examples, in the order in which they are stored.
fn programs() -> [(&'static str, Vec<Example>); 3] {
    ["examples", "sheet_examples", "order_examples"].map(|program| {
        let mut examples = all();
        examples.retain(|example| example.kind.runs_in(program));
        (program, examples)
    })
}

fn input(examples: &[Example]) -> Vec<u8> {
    examples.iter().flat_map(Example::input).collect()
}

fn output(examples: &[Example]) -> Vec<u8> {
    examples.iter().flat_map(Example::output).collect()
}

fn write(directory: &Path) -> Result<(), String> {
    for (program, examples) in programs() {
        let directory = directory.join(program);
        store(&directory.join("stdin"), &input(&examples))?;
        store(&directory.join("stdout"), &output(&examples))?;
    }
    Ok(())
}

fn store(path: &Path, bytes: &[u8]) -> Result<(), String> {
    fs::write(path, bytes).map_err(|error| format!("{}: {error}", path.display()))
}

fn check(directory: &Path) -> Result<(), String> {
    for (program, examples) in programs() {
        check_program(&directory.join(program), &examples)?;
    }
    Ok(())
}

fn check_program(directory: &Path, examples: &[Example]) -> Result<(), String> {
    let stdin = directory.join("stdin");
    if stored(&stdin)? != input(examples) {
        return Err(format!("{} is not as generated", stdin.display()));
    }
    let stdout = directory.join("stdout");
    let expected = output(examples);
    match difference(&stored(&stdout)?, &expected) {
        None => Ok(()),
        Some(number) => Err(format!(
            "{}:{number}: differs ({})",
            stdout.display(),
            place(examples, number)
        )),
    }
}

fn stored(path: &Path) -> Result<Vec<u8>, String> {
    fs::read(path).map_err(|error| format!("{}: {error}", path.display()))
}

/// The number of the first line that differs.
fn difference(stored: &[u8], expected: &[u8]) -> Option<usize> {
    let mut stored = stored.split(|&byte| byte == b'\n');
    let mut expected = expected.split(|&byte| byte == b'\n');
    (1..).find_map(|number| match (stored.next(), expected.next()) {
        (None, None) => Some(None),
        (stored, expected) => (stored != expected).then_some(Some(number)),
    })?
}

/// The case that a line of the output belongs to, and which of its lines it is.
fn place(examples: &[Example], number: usize) -> String {
    let mut before = 0;
    for example in examples {
        let lines = lines(&example.output());
        if number <= before + lines {
            let line = number - before;
            return format!("line {line} of {lines}, {}", example.name);
        }
        before += lines;
    }
    "no case".into()
}

fn lines(output: &[u8]) -> usize {
    output.iter().filter(|&&byte| byte == b'\n').count()
}

#[cfg(test)]
mod tests {
    use std::collections::HashSet;

    use super::*;

    #[test]
    fn the_first_differing_line_is_found() {
        assert_eq!(difference(b"a\nb\n", b"a\nb\n"), None);
        assert_eq!(difference(b"a\nb\n", b"a\nc\n"), Some(2));
        assert_eq!(difference(b"a\n", b"a\nb\n"), Some(2));
        assert_eq!(difference(b"a\nb\n", b"a\n"), Some(2));
        assert_eq!(difference(b"a", b"a\n"), Some(2));
    }

    #[test]
    fn a_line_has_its_case() {
        let find = |name| {
            let mut examples = all().into_iter();
            examples.find(|example| example.name == name).expect(name)
        };
        let examples = [
            "S",
            "message: L 6",
            "report: worked example",
            "message: L 5",
        ]
        .map(find);
        let expected = [
            (1, "line 1 of 1, S"),
            (2, "line 1 of 1, message: L 6"),
            (3, "line 1 of 2, report: worked example"),
            (4, "line 2 of 2, report: worked example"),
            (5, "line 1 of 1, message: L 5"),
            (6, "no case"),
        ];
        for (number, place_of_line) in expected {
            assert_eq!(place(&examples, number), place_of_line);
        }
    }

    #[test]
    fn every_example_has_a_name_of_its_own() {
        let examples = all();
        let names: HashSet<&str> = examples.iter().map(|e| e.name.as_str()).collect();
        assert_eq!(names.len(), examples.len());
    }

    #[test]
    fn every_example_ends_its_last_line() {
        for example in all() {
            assert_eq!(example.output().last(), Some(&b'\n'), "{}", example.name);
        }
    }

    /// The example programs have room for so much input.
    #[test]
    fn the_input_fits() {
        for (program, examples) in programs() {
            assert!(input(&examples).len() < 524_288, "{program}");
        }
    }

    #[test]
    fn every_example_has_its_programs() {
        let [examples, of_sheets, of_orders] = programs().map(|(_, examples)| examples.len());
        assert_eq!(of_sheets + of_orders, all().len());
        assert_eq!(examples + asked::all().len(), all().len());
        assert!([examples, of_sheets, of_orders]
            .iter()
            .all(|&count| count > 0));
    }
}

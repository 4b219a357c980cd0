//! The header for C has the version, the names, the numbers and the texts that this crate has.

use std::fs;
use std::path::{Path, PathBuf};
use std::process::Command;

use cases::{Dates, LISTS};
use kieselbrot::{slot_of, version, words, Date, Party, Record, Terms, FIELDS, VERSION};

fn bindings() -> PathBuf {
    Path::new(env!("CARGO_MANIFEST_DIR")).join("../..")
}

fn header() -> String {
    fs::read_to_string(bindings().join("c/kieselbrot.h")).expect("the header")
}

/// What `#define` gives a name.
fn defined(header: &str, name: &str) -> String {
    let start = format!("#define KIESELBROT_{name} ");
    let value = header.lines().find_map(|line| line.strip_prefix(&start));
    value.expect("a definition").to_owned()
}

#[test]
fn one_version() {
    let header = header();
    let of = |part: &str| defined(&header, &format!("VERSION_{part}"));
    let parts = ["MAJOR", "MINOR", "PATCH"].map(of);
    assert_eq!(parts.join("."), VERSION);
    assert_eq!(version().map(|part| part.to_string()), parts);
}

#[test]
fn sizes_and_bounds() {
    let header = header();
    let table: [(&str, u64); 21] = [
        ("FIELDS", FIELDS.len() as u64),
        ("TEXT_MAX", kieselbrot::TEXT_MAX as u64),
        ("SHEET_SIZE", kieselbrot::SHEET_SIZE as u64),
        ("SHEET_SLOT_SIZE", kieselbrot::SHEET_SLOT_SIZE as u64),
        ("DRAFT_SIZE", kieselbrot::DRAFT_SIZE as u64),
        ("DRAFT_SLOT_SIZE", kieselbrot::DRAFT_SLOT_SIZE as u64),
        (
            "MESSAGE_HEAD_SIZE_1",
            kieselbrot::MESSAGE_HEAD_SIZE_1 as u64,
        ),
        (
            "MESSAGE_HEAD_SIZE_2",
            kieselbrot::MESSAGE_HEAD_SIZE_2 as u64,
        ),
        ("MESSAGE_MAX", kieselbrot::MESSAGE_MAX as u64),
        ("CLIENT", Party::CLIENT.0.into()),
        ("ADVISER", Party::ADVISER.0.into()),
        ("LINES_BLOCK_MAX", kieselbrot::LINES_BLOCK_MAX as u64),
        ("ORDER_DATE_MIN", kieselbrot::ORDER_DATE_MIN.0.into()),
        ("FIRST32", Record::GIVEN.first32.0.into()),
        ("FIRST33", Record::GIVEN.first33.0.into()),
        ("LAST02", Record::GIVEN.last02.0.into()),
        ("KOPECKS_MAX", kieselbrot::KOPECKS_MAX),
        ("RATE_MAX", kieselbrot::RATE_MAX),
        ("POOL_SIZE", kieselbrot::POOL_SIZE as u64),
        ("PAYMENT_PLACES", kieselbrot::PAYMENT_PLACES as u64),
        ("BALANCE_MAX", kieselbrot::BALANCE_MAX),
    ];
    for (name, value) in table {
        let digits: String = defined(&header, name)
            .trim_start_matches("UINT32_C(")
            .trim_start_matches("UINT64_C(")
            .trim_end_matches(')')
            .to_owned();
        assert_eq!(digits, value.to_string(), "{name}");
    }
}

/// tools/words makes the header of words that is in the tree.
#[test]
fn words_are_made_from_the_table() {
    let made = Command::new(bindings().join("../tools/words")).output();
    let made = made.expect("tools/words runs").stdout;
    let stored = fs::read(bindings().join("c/kieselbrot_words.h")).expect("the header of words");
    assert!(
        made == stored,
        "run tools/words >bindings/c/kieselbrot_words.h"
    );
}

/// The directory of the library that is linked.
fn library() -> PathBuf {
    let given = std::env::var("KIESELBROT_LIB_DIR");
    let given = given.unwrap_or_else(|_| "../../../target/staticlib".to_owned());
    Path::new(env!("CARGO_MANIFEST_DIR")).join(given)
}

/// What is done in a directory of its own.
fn in_directory<T>(name: &str, work: impl FnOnce(&Path) -> T) -> T {
    let directory = format!("kieselbrot-{name}-{}", std::process::id());
    let directory = std::env::temp_dir().join(directory);
    fs::create_dir_all(&directory).expect("a directory");
    let done = work(&directory);
    fs::remove_dir_all(&directory).expect("it is removed");
    done
}

/// What rustc says where this crate, of this major version, is compiled and a program links it.
fn linked(directory: &Path, major: &str) -> String {
    let source = Path::new(env!("CARGO_MANIFEST_DIR")).join("src/lib.rs");
    let program = directory.join("main.rs");
    fs::write(
        &program,
        "extern crate kieselbrot;\nfn main() { let _ = kieselbrot::origins(&[]); }",
    )
    .expect("a program");
    let rustc = || {
        let mut rustc = Command::new(std::env::var("RUSTC").unwrap_or("rustc".to_owned()));
        rustc.args(["--edition", "2021", "--cap-lints", "allow", "--out-dir"]);
        rustc.arg(directory);
        rustc
    };
    let crate_made = rustc()
        .args(["--crate-name", "kieselbrot", "--crate-type", "rlib"])
        .args(["-l", "static=kieselbrot", "-L"])
        .arg(library())
        .arg(source)
        .env("CARGO_PKG_VERSION_MAJOR", major)
        .env("CARGO_PKG_VERSION", format!("{major}.0.0"))
        .env("OUT_DIR", env!("OUT_DIR"))
        .output();
    assert!(crate_made.expect("rustc runs").status.success());
    let made = rustc().arg("-L").arg(directory).arg(program).output();
    let made = made.expect("rustc runs");
    String::from_utf8_lossy(&made.stderr).into_owned()
}

/// A crate of another major version refers to names that the library does not have.
#[test]
fn another_major_version_does_not_link() {
    let major = version()[0];
    let linked = |major: u32| {
        in_directory(&format!("major-{major}"), |directory| {
            linked(directory, &major.to_string())
        })
    };
    assert_eq!(linked(major), "");
    let next = major + 1;
    let refused = linked(next);
    assert!(
        refused.contains(&format!("kieselbrot_{next}_origins")),
        "{refused}"
    );
}

/// The program of `words.c`: a line for each text that the C header has.
fn told(directory: &Path, dates: &[Dates]) -> Vec<String> {
    let program = directory.join("words");
    let source = Path::new(env!("CARGO_MANIFEST_DIR")).join("tests/words.c");
    let compiled = Command::new("gcc")
        .args(["-std=c11", "-Wall", "-Wextra", "-Wpedantic", "-Werror"])
        .arg("-I")
        .arg(bindings().join("c"))
        .arg(source)
        .arg(library().join("libkieselbrot.a"))
        .arg("-o")
        .arg(&program)
        .status();
    assert!(compiled.expect("gcc runs").success());
    let asked = dates.iter().flat_map(|dates| {
        let numbers = [dates.order, dates.first32, dates.first33, dates.last02];
        numbers.map(|number| number.to_string())
    });
    let output = Command::new(&program).args(asked).output();
    let output = String::from_utf8(output.expect("it runs").stdout).expect("UTF-8");
    output.lines().map(str::to_owned).collect()
}

/// The same lines from this crate.
fn expected(dates: &[Dates]) -> Vec<String> {
    let shown = |text: Option<&str>| text.unwrap_or("-").to_owned();
    let mut lines = Vec::new();
    for slot in 0..=FIELDS.len() {
        let field = FIELDS.get(slot).copied().unwrap_or(0);
        lines.push(format!("slot {slot} {field}"));
    }
    for number in 0..=u8::MAX {
        let slot = slot_of(number).unwrap_or(FIELDS.len());
        lines.push(format!(
            "field {number} {slot} {}",
            shown(words::field(number))
        ));
        lines.push(format!(
            "party {number} {}",
            shown(words::party(Party(number)))
        ));
        lines.push(format!(
            "refusal {number} {}",
            shown(words::refusal(number))
        ));
    }
    for dates in dates {
        let record = Record {
            first32: Date(dates.first32),
            first33: Date(dates.first33),
            last02: Date(dates.last02),
        };
        let terms = Terms::new(Date(dates.order), record);
        for rule in 0..=36 {
            let text = words::rule(rule, terms).unwrap_or_default();
            lines.push(format!("rule {rule} {text}"));
        }
    }
    lines
}

#[test]
fn words_of_c_and_rust_are_equal() {
    let mut dates: Vec<Dates> = LISTS
        .into_iter()
        .map(|list| Dates::PROGRAM.allowing(list))
        .collect();
    dates.push(Dates::PROGRAM);
    dates.push(Dates {
        order: 0,
        ..Dates::PROGRAM
    });
    let told = in_directory("words", |directory| told(directory, &dates));
    let expected = expected(&dates);
    for (told, expected) in told.iter().zip(&expected) {
        assert_eq!(told, expected);
    }
    assert_eq!(told.len(), expected.len());
}

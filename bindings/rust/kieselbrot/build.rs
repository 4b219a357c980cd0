//! Links the proved library, `libkieselbrot.a`, and makes the texts of the module `words`.
//!
//! `KIESELBROT_LIB_DIR` names the library's directory (an absolute path, or one relative to
//! this crate); without it the repository's `target/staticlib` is taken. The texts are those
//! of `bindings/words.txt`, from which the C header has them, too.

use std::env;
use std::fs;
use std::path::{Path, PathBuf};

const DIRECTORY: &str = "KIESELBROT_LIB_DIR";
const DEFAULT: &str = "../../../target/staticlib";
const WORDS: &str = "../../words.txt";

fn main() {
    link();
    let words = in_crate(WORDS);
    println!("cargo:rerun-if-changed={}", words.display());
    let table = fs::read_to_string(&words).expect("the table of words is read");
    let made = in_directory("OUT_DIR").join("words.rs");
    fs::write(made, texts(&table)).expect("the words are written");
}

fn link() {
    let given = env::var_os(DIRECTORY).unwrap_or_else(|| DEFAULT.into());
    let directory = in_crate(given);
    let archive = directory.join("libkieselbrot.a");
    println!("cargo:rustc-link-search=native={}", directory.display());
    println!("cargo:rustc-link-lib=static=kieselbrot");
    println!("cargo:rerun-if-env-changed={DIRECTORY}");
    println!("cargo:rerun-if-changed={}", archive.display());
    let target = ["ARCH", "OS"].map(|part| env::var(format!("CARGO_CFG_TARGET_{part}")));
    if target != [Ok("x86_64".to_owned()), Ok("linux".to_owned())] {
        println!("cargo:warning=the library is made for x86-64 Linux, not for this target");
    }
    if !archive.exists() {
        println!(
            "cargo:warning={} is missing: build the library first, or set {DIRECTORY}",
            archive.display()
        );
    }
}

fn in_directory(variable: &str) -> PathBuf {
    env::var_os(variable).unwrap_or_default().into()
}

fn in_crate(path: impl AsRef<Path>) -> PathBuf {
    in_directory("CARGO_MANIFEST_DIR").join(path)
}

/// The numbers and texts of a kind, as the table has them.
fn rows<'a>(table: &'a str, kind: &str) -> Vec<(u8, &'a str)> {
    let lines = table.lines().filter(|line| !line.starts_with('#'));
    let rows = lines.filter_map(|line| {
        let (named, row) = line.split_once(' ')?;
        let (number, text) = row.split_once(' ')?;
        let number = number.parse().expect("a number in the table of words");
        (named == kind).then_some((number, text))
    });
    rows.collect()
}

/// The texts as constants of Rust's: for fields with their numbers, for the others by these,
/// which count from 1.
fn texts(table: &str) -> String {
    let numbered = |name: &str, kind: &str| {
        let rows = rows(table, kind);
        assert!(rows.iter().map(|row| row.0).eq(1..=rows.len() as u8));
        let texts: Vec<&str> = rows.into_iter().map(|row| row.1).collect();
        format!("const {name}: [&str; {}] = {texts:?};\n", texts.len())
    };
    let fields = rows(table, "field");
    let treasury = rows(table, "statuses").into_iter();
    let treasury: Vec<&str> = treasury.flat_map(|row| row.1.split(' ')).collect();
    [
        format!(
            "const FIELD_NAMES: [(u8, &str); {}] = {fields:?};\n",
            fields.len()
        ),
        numbered("RULES", "rule"),
        numbered("REFUSALS", "refusal"),
        numbered("PARTIES", "party"),
        format!(
            "const TREASURY: [&str; {}] = {treasury:?};\n",
            treasury.len()
        ),
    ]
    .concat()
}

//! Files, and their lines.

use std::ffi::OsStr;
use std::fs;
use std::io::{self, Read};
use std::path::Path;

use crate::{shown, Failure};

/// A file that was read whole.
pub struct Input {
    /// What it is called in messages.
    pub name: String,
    /// Its bytes, without a mark of UTF-8 at the start.
    pub bytes: Vec<u8>,
}

impl Input {
    /// Reads a file, or standard input for `-`.
    pub fn read(path: &OsStr) -> Result<Self, Failure> {
        let (name, bytes) = if path == "-" {
            let mut bytes = Vec::new();
            let read = io::stdin().lock().read_to_end(&mut bytes);
            ("standard input".to_owned(), read.map(|_| bytes))
        } else {
            (
                shown::visible(&path.to_string_lossy()),
                fs::read(Path::new(path)),
            )
        };
        match bytes {
            Ok(bytes) => Ok(Self { name, bytes }),
            Err(error) => Err(Failure::Input(format!("{name}: {error}"))),
        }
    }

    /// The lines, numbered from 1, without their ends.
    pub fn lines(&self) -> impl Iterator<Item = (usize, &[u8])> {
        let marked = self.bytes.strip_prefix(MARK);
        let lines = marked.unwrap_or(&self.bytes).split(|&byte| byte == b'\n');
        let ended = lines.map(|line| line.strip_suffix(b"\r").unwrap_or(line));
        (1..).zip(ended)
    }

    /// Each line that is not left out, read by a function; what is wrong with any is named
    /// with its number, and then nothing is read.
    pub fn items<T>(
        &self,
        read: impl Fn(&str) -> Result<T, String>,
    ) -> Result<Vec<(usize, T)>, Failure> {
        let mut items = Vec::new();
        let mut wrong = Vec::new();
        for (number, line) in self.lines() {
            let item = match str::from_utf8(line) {
                Ok(line) if order::is_left_out(line) => continue,
                Ok(line) => read(line),
                Err(_) => Err(order::Mistake::NotUtf8.to_string()),
            };
            match item {
                Ok(item) => items.push((number, item)),
                Err(mistake) => wrong.push(format!("{}:{number}: {mistake}", self.name)),
            }
        }
        match wrong.is_empty() {
            true => Ok(items),
            false => Err(Failure::Input(wrong.join("\n"))),
        }
    }
}

/// What some editors put before UTF-8.
pub const MARK: &[u8] = b"\xEF\xBB\xBF";

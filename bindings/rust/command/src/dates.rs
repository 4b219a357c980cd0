//! The options `--date`, `--first32`, `--first33` and `--last02`.

use std::ffi::OsStr;

use kieselbrot::{Date, Record, Terms};

use crate::arguments::Arguments;
use crate::{shown, Failure};

/// The names of the options.
pub const OPTIONS: [&str; 4] = ["--date", "--first32", "--first33", "--last02"];

/// The order's date and the record: those given, or the program's.
pub fn dates(arguments: &Arguments) -> Result<Terms, Failure> {
    let date = |option: &str, otherwise: Date| match arguments.value(option) {
        Some(value) => read(option, value),
        None => Ok(otherwise),
    };
    let given = Record::GIVEN;
    let record = Record {
        first32: date("--first32", given.first32)?,
        first33: date("--first33", given.first33)?,
        last02: date("--last02", given.last02)?,
    };
    Ok(Terms::new(date("--date", order::TERMS.date)?, record))
}

/// A date YYYY-MM-DD or YYYYMMDD; whether there is such a day the library says.
fn read(option: &str, value: &OsStr) -> Result<Date, Failure> {
    let value = value.to_string_lossy();
    let digits = match *value.as_bytes() {
        [_, _, _, _, b'-', _, _, b'-', _, _] => value.replacen('-', "", 2),
        _ => value.to_string(),
    };
    let is_number = digits.len() == 8 && digits.bytes().all(|byte| byte.is_ascii_digit());
    let number = is_number.then(|| digits.parse().ok()).flatten();
    number.map(Date).ok_or_else(|| {
        let value = shown::short(&value);
        Failure::Usage(format!(
            "{option} \"{value}\" is not written YYYY-MM-DD or YYYYMMDD"
        ))
    })
}

#[cfg(test)]
mod tests {
    use super::*;

    #[test]
    fn both_forms() {
        let date = |value: &str| read("--date", OsStr::new(value)).ok();
        assert_eq!(date("2024-01-15"), Some(Date(20240115)));
        assert_eq!(date("20240115"), Some(Date(20240115)));
        assert_eq!(date("2024-13-99"), Some(Date(20241399)));
        for wrong in [
            "",
            "2024",
            "2024-1-15",
            "2024-0115",
            "202401-15",
            "+2024011",
            "２0240115",
        ] {
            assert_eq!(date(wrong), None, "{wrong}");
        }
    }
}

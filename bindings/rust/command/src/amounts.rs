//! `charge`, `part` and `shares`: amounts.

use std::ffi::{OsStr, OsString};

use kieselbrot::Refusal;

use crate::arguments::parse;
use crate::sheets::refuse;
use crate::{json, shown, write_all, Answer, Failure, Status};

/// The kopecks of an amount: roubles with two decimals (12.34), or kopecks with a `k`
/// (1234k). What is more than any amount is the greatest number, which the library refuses.
pub fn kopecks(amount: &str) -> Result<u64, String> {
    let written = if let Some(kopecks) = amount.strip_suffix('k') {
        digits(kopecks)
    } else {
        let parts = amount.split_once('.');
        let parts = parts.filter(|(roubles, kopecks)| !roubles.is_empty() && kopecks.len() == 2);
        parts.and_then(|(roubles, kopecks)| {
            let kopecks = digits(kopecks)?;
            Some(digits(roubles)?.saturating_mul(100).saturating_add(kopecks))
        })
    };
    written.ok_or_else(|| {
        format!(
            "\"{}\" is no amount: roubles with two decimals (12.34), or kopecks (1234k)",
            shown::short(amount)
        )
    })
}

/// The number that digits write, at most the greatest.
fn digits(digits: &str) -> Option<u64> {
    let is_number = !digits.is_empty() && digits.bytes().all(|byte| byte.is_ascii_digit());
    is_number.then(|| digits.parse().unwrap_or(u64::MAX))
}

/// Kopecks as roubles with two decimals.
pub fn roubles(kopecks: u64) -> String {
    format!("{}.{:02}", kopecks / 100, kopecks % 100)
}

/// A rate in hundredths of a percent (50), or in percent (0.5% or 0.50%).
fn rate(rate: &str) -> Result<u64, String> {
    let written = match rate.strip_suffix('%') {
        None => digits(rate),
        Some(percent) => {
            let (whole, decimals) = percent.split_once('.').unwrap_or((percent, "0"));
            let scale = match decimals.len() {
                1 => 10,
                2 => 1,
                _ => 0,
            };
            let decimals = digits(decimals).filter(|_| scale > 0);
            digits(whole)
                .zip(decimals)
                .map(|(whole, decimals)| whole.saturating_mul(100).saturating_add(scale * decimals))
        }
    };
    written.ok_or_else(|| {
        let rate = shown::short(rate);
        format!("\"{rate}\" is no rate: percent (0.50%), or hundredths of a percent (50)")
    })
}

/// A number of days, at most the greatest.
fn days(days: &str) -> Result<u32, String> {
    let written = digits(days).map(|days| u32::try_from(days).unwrap_or(u32::MAX));
    written.ok_or_else(|| format!("\"{}\" is no number of days", shown::short(days)))
}

/// An argument read by a function.
pub fn read<T>(item: &OsStr, read: impl Fn(&str) -> Result<T, String>) -> Result<T, Failure> {
    read(&item.to_string_lossy()).map_err(Failure::Usage)
}

/// `charge AMOUNT RATE LEAST GREATEST`.
pub fn charge(given: &[OsString]) -> Answer {
    let arguments = parse(given, &["--json"], &[])?;
    let [amount, per, least, greatest] = &arguments.items[..] else {
        return Err(Failure::Usage(
            "AMOUNT RATE LEAST GREATEST are wanted".to_owned(),
        ));
    };
    let (amount, rate) = (read(amount, kopecks)?, read(per, rate)?);
    let (least, greatest) = (read(least, kopecks)?, read(greatest, kopecks)?);
    let is_json = arguments.has("--json");
    match kieselbrot::charge(amount, rate, least, greatest) {
        Ok(charge) => answer(
            is_json,
            charge,
            |_| (),
            &format!("The charge is {}.", roubles(charge)),
        ),
        Err(refusal) => refuse(refusal, &of_charge(refusal), is_json),
    }
}

/// `part AMOUNT DAYS YEAR`.
pub fn part(given: &[OsString]) -> Answer {
    let arguments = parse(given, &["--json"], &[])?;
    let [amount, of_year, year] = &arguments.items[..] else {
        return Err(Failure::Usage("AMOUNT DAYS YEAR are wanted".to_owned()));
    };
    let (amount, of_year, year) = (
        read(amount, kopecks)?,
        read(of_year, days)?,
        read(year, days)?,
    );
    let is_json = arguments.has("--json");
    match kieselbrot::part(amount, of_year, year) {
        Ok(part) => {
            let remainder = part.remainder;
            let words = format!(
                "The part is {}; {remainder} of {year} parts of a kopeck remain.",
                roubles(part.kopecks)
            );
            let more = |object: &mut json::Object| object.value("remainder", remainder);
            answer(is_json, part.kopecks, more, &words)
        }
        Err(refusal) => refuse(refusal, &of_year_part(refusal), is_json),
    }
}

/// `shares AMOUNT YEAR DAYS..`.
pub fn shares(given: &[OsString]) -> Answer {
    let arguments = parse(given, &["--json"], &[])?;
    let [amount, year, periods @ ..] = &arguments.items[..] else {
        return Err(Failure::Usage("AMOUNT YEAR DAYS.. are wanted".to_owned()));
    };
    let (amount, year) = (read(amount, kopecks)?, read(year, days)?);
    let periods = periods.iter().map(|period| read(period, days));
    let periods = periods.collect::<Result<Vec<u32>, _>>()?;
    let is_json = arguments.has("--json");
    match kieselbrot::shares(amount, year, &periods) {
        Ok(shares) => {
            let shares = periods.iter().zip(shares);
            let text = match is_json {
                true => json::line(|object| {
                    object.value("answer", 0);
                    object.numbers("kopecks", shares.map(|(_, share)| share));
                }),
                false => shares
                    .map(|(days, share)| format!("{days} {}\n", roubles(share)))
                    .collect(),
            };
            write_all(text.as_bytes())?;
            Ok(Status::Done)
        }
        Err(refusal) => refuse(refusal, &of_year_part(refusal), is_json),
    }
}

/// Tells an amount that was computed.
fn answer(
    is_json: bool,
    kopecks: u64,
    more: impl FnOnce(&mut json::Object),
    words: &str,
) -> Answer {
    let text = match is_json {
        true => json::line(|object| {
            object.value("answer", 0);
            object.value("kopecks", kopecks);
            more(object);
        }),
        false => format!("{words}\n"),
    };
    write_all(text.as_bytes())?;
    Ok(Status::Done)
}

fn of_charge(refusal: Refusal) -> String {
    match refusal {
        Refusal::Tariff => "No charge: the amount must be 0.01 to 10000000000.00, the rate 0 to \
                            100 percent, the least and the greatest charge at most \
                            10000000000.00, the least not above the greatest."
            .to_owned(),
        _ => format!(
            "The linked library is another one: a charge never answers {}.",
            refusal.numbers()
        ),
    }
}

fn of_year_part(refusal: Refusal) -> String {
    match refusal {
        Refusal::YearPart => "No part: the amount must be 0.01 to 10000000000.00, the year of \
                              365 or 366 days, the days 1 to that; of shares there are 1 to 12 \
                              periods of at least one day, which sum to the year."
            .to_owned(),
        _ => format!(
            "The linked library is another one: a part never answers {}.",
            refusal.numbers()
        ),
    }
}

#[cfg(test)]
mod tests {
    use super::*;

    #[test]
    fn amounts_in_both_forms() {
        for (written, expected) in [
            ("12.34", 1234),
            ("0.01", 1),
            ("1234k", 1234),
            ("0k", 0),
            ("10000000000.00", 1_000_000_000_000),
            ("99999999999999999999.99", u64::MAX),
            ("99999999999999999999k", u64::MAX),
        ] {
            assert_eq!(kopecks(written), Ok(expected), "{written}");
        }
        for wrong in [
            "", "12", "12.3", "12.345", ".34", "12.", "-1.00", "k", "1 k", "1.00k", "1,00", "+1k",
            "１k",
        ] {
            assert!(kopecks(wrong).is_err(), "{wrong}");
        }
        assert_eq!([0, 9, 1234].map(roubles), ["0.00", "0.09", "12.34"]);
    }

    #[test]
    fn rates_in_both_forms() {
        for (written, expected) in [
            ("50", 50),
            ("0.5%", 50),
            ("0.50%", 50),
            ("0.05%", 5),
            ("100%", 10_000),
        ] {
            assert_eq!(rate(written), Ok(expected), "{written}");
        }
        for wrong in ["", "%", "0.5", "0.005%", ".5%", "1.%", "-1"] {
            assert!(rate(wrong).is_err(), "{wrong}");
        }
    }
}

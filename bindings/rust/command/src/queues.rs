//! `register` and `leave`: files of amounts.

use std::collections::HashMap;
use std::ffi::OsString;

use kieselbrot::{Payment, Refusal};
use kieselbrot::{LINE_SIZE, POOL_SIZE};

use crate::amounts::{kopecks, read, roubles};
use crate::arguments::{parse, Arguments};
use crate::input::Input;
use crate::sheets::refuse;
use crate::{json, shown, write_all, Answer, Failure, Status};

/// The amount that an option gives.
fn amount(arguments: &Arguments, option: &str) -> Result<u64, Failure> {
    match arguments.value(option) {
        Some(value) => read(value, kopecks),
        None => Err(Failure::Usage(format!("{option} is missing"))),
    }
}

/// `register FILE --amount A`.
pub fn register(given: &[OsString]) -> Answer {
    let arguments = parse(given, &["--json"], &["--amount"])?;
    let input = Input::read(arguments.one("FILE")?)?;
    let amount = amount(&arguments, "--amount")?;
    let lines = input.items(register_line)?;
    let register: Vec<u8> = lines.iter().flat_map(|(_, line)| *line).collect();
    let mut pooled = [0; POOL_SIZE];
    let is_json = arguments.has("--json");
    match kieselbrot::pool(&register, amount, &mut pooled) {
        Ok(count) => {
            let pooled = pooled.chunks_exact(LINE_SIZE).take(count).map(|line| {
                let (inn, kopecks) = line.split_at(LINE_SIZE - 8);
                let kopecks = kopecks.try_into().map_or(0, u64::from_be_bytes);
                (String::from_utf8_lossy(inn).into_owned(), kopecks)
            });
            let text = match is_json {
                true => json::line(|object| {
                    object.value("answer", 0);
                    object.array("pooled", pooled, |out, (inn, kopecks)| {
                        json::object(out, |object| {
                            object.text("inn", &inn);
                            object.value("kopecks", kopecks);
                        });
                    });
                }),
                false => pooled
                    .map(|(inn, kopecks)| format!("{inn} {}\n", roubles(kopecks)))
                    .collect(),
            };
            write_all(text.as_bytes())?;
            Ok(Status::Done)
        }
        Err(refusal) => {
            let words = of_register(refusal, &input.name, &lines);
            refuse(refusal, &words, is_json)
        }
    }
}

type RegisterLine = [u8; LINE_SIZE];

/// A line INN AMOUNT. An INN that has not 12 bytes becomes one that the library refuses.
fn register_line(line: &str) -> Result<RegisterLine, String> {
    let (inn, amount) = line.split_once(' ').unwrap_or((line, ""));
    let mut register_line = [0; LINE_SIZE];
    let (to, kopecks_to) = register_line.split_at_mut(LINE_SIZE - 8);
    if inn.len() == to.len() {
        to.copy_from_slice(inn.as_bytes());
    }
    kopecks_to.copy_from_slice(&kopecks(amount)?.to_be_bytes());
    Ok(register_line)
}

fn of_register(refusal: Refusal, name: &str, lines: &[(usize, RegisterLine)]) -> String {
    match refusal {
        Refusal::Register => {
            // A line that is right makes a register of its own.
            let is_wrong = |line: &RegisterLine| {
                let kopecks = line[LINE_SIZE - 8..]
                    .try_into()
                    .map_or(0, u64::from_be_bytes);
                kieselbrot::pool(line, kopecks, &mut [0; POOL_SIZE]).is_err()
            };
            let wrong = lines
                .iter()
                .filter(|(_, line)| is_wrong(line))
                .map(|(number, _)| {
                    format!(
                    "\n{name}:{number}: the INN is not one of 12 digits with right check digits, \
                     or the amount is not 0.01 to 10000000000.00"
                )
                });
            "No register: it must have 1 to 500 lines, each with an INN of 12 digits and an \
             amount, and the order's amount must be 0.01 to 10000000000000.00."
                .to_owned()
                + &wrong.collect::<String>()
        }
        Refusal::Discrepancy { difference } => {
            let by = roubles(difference.unsigned_abs());
            let sign = if difference < 0 { "less" } else { "more" };
            format!("The register's total is {by} {sign} than the order's amount.")
        }
        _ => format!(
            "The linked library is another one: pooling never answers {}.",
            refusal.numbers()
        ),
    }
}

/// `leave FILE --balance B`.
pub fn leave(given: &[OsString]) -> Answer {
    let arguments = parse(given, &["--json"], &["--balance"])?;
    let input = Input::read(arguments.one("FILE")?)?;
    let balance = amount(&arguments, "--balance")?;
    let lines = input.items(payment)?;
    let payments: Vec<Payment> = lines.iter().map(|(_, payment)| *payment).collect();
    let is_json = arguments.has("--json");
    match kieselbrot::leave(balance, &payments) {
        Ok(leaving) => {
            let of: HashMap<u32, &Payment> = payments
                .iter()
                .map(|payment| (payment.arrival, payment))
                .collect();
            let places = leaving.places.iter().take(payments.len());
            let in_order = places.filter_map(|arrival| of.get(arrival));
            let paid = leaving.paid;
            let text = match is_json {
                true => json::line(|object| {
                    object.value("answer", 0);
                    object.numbers("order", in_order.map(|payment| payment.arrival));
                    object.value("paid", paid.count);
                    object.value("sum", paid.sum);
                    object.value("left", paid.left);
                }),
                false => {
                    let rows = in_order.enumerate().map(|(place, payment)| {
                        let leaves = if place < paid.count { "paid" } else { "waits" };
                        let amount = roubles(payment.amount);
                        let Payment {
                            priority, arrival, ..
                        } = payment;
                        format!("{priority} {arrival} {amount} {leaves}\n")
                    });
                    let rows: String = rows.collect();
                    let (sum, left) = (roubles(paid.sum), roubles(paid.left));
                    let payments = shown::counted(paid.count, "payment");
                    format!("{rows}\n{payments} paid with {sum}; {left} is left.\n")
                }
            };
            write_all(text.as_bytes())?;
            Ok(Status::Done)
        }
        Err(refusal) => {
            let words = of_queue(refusal, &input.name, &lines);
            refuse(refusal, &words, is_json)
        }
    }
}

/// A line PRIORITY ARRIVAL AMOUNT. A priority of more digits becomes one that the library
/// refuses.
fn payment(line: &str) -> Result<Payment, String> {
    let mut items = line.splitn(3, ' ');
    let mut item = || items.next().unwrap_or_default();
    let (priority, arrival, amount) = (item(), item(), item());
    let is_number = |item: &str| !item.is_empty() && item.bytes().all(|byte| byte.is_ascii_digit());
    if !is_number(priority) {
        return Err(format!(
            "\"{}\" is no priority: 1 to 5",
            shown::short(priority)
        ));
    }
    let number = is_number(arrival).then(|| arrival.parse().ok()).flatten();
    let arrival = number.ok_or_else(|| {
        let (arrival, most) = (shown::short(arrival), u32::MAX);
        format!("\"{arrival}\" is no arrival number: 0 to {most}")
    })?;
    Ok(Payment {
        priority: priority.parse().unwrap_or(u8::MAX),
        arrival,
        amount: kopecks(amount)?,
    })
}

fn of_queue(refusal: Refusal, name: &str, lines: &[(usize, Payment)]) -> String {
    match refusal {
        Refusal::Queue => {
            // A payment that is right may wait alone.
            let is_wrong = |payment: &Payment| kieselbrot::leave(0, &[*payment]).is_err();
            let wrong = lines
                .iter()
                .filter(|(_, payment)| is_wrong(payment))
                .map(|(number, _)| {
                    format!(
                    "\n{name}:{number}: the priority is not 1 to 5, or the amount is not 0.01 to \
                     10000000000.00"
                )
                });
            "No order of payments: there may be up to 64, and the balance must be at most \
             10000000000000.00."
                .to_owned()
                + &wrong.collect::<String>()
        }
        Refusal::EqualArrivals => {
            let mut seen = HashMap::new();
            let twice = lines.iter().filter_map(|(number, payment)| {
                let arrival = payment.arrival;
                let first = seen.insert(arrival, *number)?;
                Some(format!(
                    "\n{name}:{number}: arrival number {arrival} stands in line {first}, too"
                ))
            });
            "No order of payments: two arrival numbers are equal.".to_owned()
                + &twice.collect::<String>()
        }
        _ => format!(
            "The linked library is another one: leaving never answers {}.",
            refusal.numbers()
        ),
    }
}

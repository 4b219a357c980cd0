//! Status 15 with its register.

use std::collections::HashMap;

use crate::charge::is_amount;
use crate::refusal::Refusal;
use crate::rules::is_inn12;

/// "A register of 1 to 500 lines", and the places an output must have.
const LINES_MAX: usize = 500;

/// "A 12-digit INN".
const INN_SIZE: usize = 12;

/// "12 bytes, then eight, big-endian".
const LINE_SIZE: usize = INN_SIZE + size_of::<u64>();

/// The greatest amount of an order: not "an order amount outside 1 to 10^15".
const ORDER_MAX: u64 = 1_000_000_000_000_000;

/// The INN of a line, as its bytes.
type Inn = [u8; INN_SIZE];

/// A line of the register, or of the pooled ones.
#[derive(Clone, Copy)]
struct Line {
    inn: Inn,
    amount: u64,
}

impl Line {
    /// The line in these bytes, or `None` "for a line whose INN or amount isn't as
    /// said": "a 12-digit INN (under R-4) and 1 to 10^12 kopecks".
    fn parse(bytes: &[u8; LINE_SIZE]) -> Option<Self> {
        let (inn, amount) = bytes.split_first_chunk()?;
        let amount = u64::from_be_bytes(amount.try_into().ok()?);
        (is_inn12(inn) && is_amount(amount)).then_some(Self { inn: *inn, amount })
    }

    /// Writes the line to an output place: "output places have the same form".
    fn write_to(&self, place: &mut [u8; LINE_SIZE]) {
        let (inn, amount) = place.split_at_mut(INN_SIZE);
        inn.copy_from_slice(&self.inn);
        amount.copy_from_slice(&self.amount.to_be_bytes());
    }
}

/// Pools the lines of a register: "lines of one INN into one, in the order of first
/// appearance", written to the output. Returns "how many there are"; "output places
/// past the pooled lines keep what they held".
///
/// "For each INN the pooled sum is the sum of its lines; the total of the pooled
/// lines, of the register and of the order agree."
///
/// # Errors
///
/// "Tested 7, 16, 17": [`Refusal::Output`] for "an output of fewer than 500
/// places", [`Refusal::Register`], [`Refusal::Discrepancy`].
pub fn pool(register: &[u8], amount: u64, output: &mut [u8]) -> Result<usize, Refusal> {
    let (places, _) = output.as_chunks_mut();
    if places.len() < LINES_MAX {
        return Err(Refusal::Output);
    }
    let lines = parse(register).ok_or(Refusal::Register)?;
    if !(1..=ORDER_MAX).contains(&amount) {
        return Err(Refusal::Register);
    }
    agree(&lines, amount)?;
    let pooled = by_inn(&lines);
    for (place, line) in places.iter_mut().zip(&pooled) {
        line.write_to(place);
    }
    Ok(pooled.len())
}

/// The lines of a register, or `None` for "a line whose INN or amount isn't as said,
/// a register not of 1 to 500 whole lines".
fn parse(register: &[u8]) -> Option<Vec<Line>> {
    let (lines, []) = register.as_chunks() else {
        return None;
    };
    if !(1..=LINES_MAX).contains(&lines.len()) {
        return None;
    }
    lines.iter().map(Line::parse).collect()
}

/// Goes on if the register's total is the order's amount; otherwise refusal 17,
/// "with the signed difference register minus order". The total is at most
/// 500 × 10^12, the order's amount at most 10^15.
fn agree(lines: &[Line], amount: u64) -> Result<(), Refusal> {
    let total: u64 = lines.iter().map(|line| line.amount).sum();
    let difference = total as i64 - amount as i64;
    if difference == 0 {
        Ok(())
    } else {
        Err(Refusal::Discrepancy { difference })
    }
}

/// "Pool lines of one INN into one, in the order of first appearance".
fn by_inn(lines: &[Line]) -> Vec<Line> {
    let mut pooled: Vec<Line> = Vec::new();
    let mut indices: HashMap<Inn, usize> = HashMap::new();
    for line in lines {
        let index = *indices.entry(line.inn).or_insert(pooled.len());
        match pooled.get_mut(index) {
            Some(first) => first.amount += line.amount,
            None => pooled.push(*line),
        }
    }
    pooled
}

//! The program `budgetorder`, as a function of its standard input.

use crate::completion::complete;
use crate::dates::{Date, Record};
use crate::draft::{post, Posted, DRAFT_SIZE};
use crate::field::Field;
use crate::refusal::Refusal;
use crate::sheet::{Sheet, SheetSlot};

/// "Reads at most 32,768 bytes of standard input".
const INPUT_MAX: usize = 32_768;

/// "The program uses the order date 20240101 and the three dates given here".
const ORDER_DATE: Date = Date(20_240_101);

/// The whole standard output of `budgetorder` for this standard input.
///
/// "Reads at most 32,768 bytes of standard input as messages end to end, each
/// 2 + L bytes or what is left if that is less, and posts them to a fresh
/// draft. Per message a line: its number from 1, then newer, same, older or the
/// refusal number. After a 2 it stops reading. Then it completes the draft and
/// prints the end". A 2 is also "an L its version doesn't allow"; an L of 32 in an
/// unknown version is a 3.
#[must_use]
pub fn report(input: &[u8]) -> Vec<u8> {
    let mut output = Vec::new();
    let mut draft = [0; DRAFT_SIZE];
    for (index, message) in messages(&input[..input.len().min(INPUT_MAX)]).enumerate() {
        let posted = post(&mut draft, message);
        line(&mut output, &format!("{} {}", index + 1, answer(posted)));
        if posted == Err(Refusal::Length) {
            break;
        }
    }
    end(&draft, &mut output);
    output
}

/// "Messages end to end, each 2 + L bytes or what is left if that is less".
pub(crate) fn messages(mut input: &[u8]) -> impl Iterator<Item = &[u8]> {
    std::iter::from_fn(move || {
        if input.is_empty() {
            return None;
        }
        let size = match input.first_chunk() {
            Some(length) => 2 + usize::from(u16::from_be_bytes(*length)),
            None => input.len(),
        };
        let (message, rest) = input.split_at(size.min(input.len()));
        input = rest;
        Some(message)
    })
}

/// "Newer, same, older or the refusal number".
fn answer(posted: Result<Posted, Refusal>) -> String {
    match posted {
        Ok(Posted::Newer) => "newer".into(),
        Ok(Posted::Same) => "same".into(),
        Ok(Posted::Older) => "older".into(),
        Err(refusal) => refusal.number().to_string(),
    }
}

/// "`end ok COUNT` and 15 lines of field number, a space and the sheet's text
/// in slot order (for a blank 15 the text is `-`); or `end` with the number and
/// what it returns."
fn end(draft: &[u8], output: &mut Vec<u8>) {
    let mut bytes = [0; size_of::<SheetSlot>() * Field::ALL.len()];
    let completed = match complete(draft, &mut bytes, ORDER_DATE, Record::GIVEN) {
        Ok(completed) => completed,
        Err(refusal) => return line(output, &format!("end {refusal}")),
    };
    line(output, &format!("end ok {}", completed.count));
    let Some(sheet) = Sheet::parse(&bytes) else {
        return;
    };
    for field in Field::ALL {
        let text: &[u8] = match field {
            Field::BankAccount if sheet[field].is_empty() => b"-",
            _ => sheet[field],
        };
        output.extend_from_slice(format!("{} ", field.number()).as_bytes());
        output.extend_from_slice(text);
        output.push(b'\n');
    }
}

fn line(output: &mut Vec<u8>, text: &str) {
    output.extend_from_slice(text.as_bytes());
    output.push(b'\n');
}

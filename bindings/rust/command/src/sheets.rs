//! `check` and `swift`: sheets and MT103 lines.

use std::ffi::OsString;

use kieselbrot::{words, Class, Refusal};
use kieselbrot::{FIELDS, LINES_BLOCK_MAX, SHEET_SIZE, SHEET_SLOT_SIZE, TEXT_MAX};
use order::{windows1251, Mistake};

use crate::arguments::parse;
use crate::complete::{broken, refused};
use crate::dates::{self, dates};
use crate::input::Input;
use crate::{json, shown, write_all, Answer, Failure, Status};

type Sheet = [u8; SHEET_SIZE];

/// The sheet of lines FIELD TEXT; a field that is left out is blank.
fn sheet(input: &Input) -> Result<Sheet, Failure> {
    let mut sheet = [0; SHEET_SIZE];
    let mut lines = [None; FIELDS.len()];
    for (number, (field, length, text)) in input.items(line)? {
        let Some(slot) = slot(field) else { continue };
        if let Some(first) = lines[slot].replace(number) {
            let field = shown::field(field);
            let name = &input.name;
            let mistake =
                format!("{name}:{number}: field {field} is given in line {first} already");
            return Err(Failure::Input(mistake));
        }
        let [given, bytes @ ..] = &mut sheet[SHEET_SLOT_SIZE * slot..][..SHEET_SLOT_SIZE] else {
            continue;
        };
        *given = length;
        bytes.copy_from_slice(&text);
    }
    Ok(sheet)
}

/// The field, the length and the bytes of a line's text.
fn line(line: &str) -> Result<(u8, u8, [u8; TEXT_MAX]), String> {
    let (field, text) = line.split_once(' ').unwrap_or((line, ""));
    let mut bytes = [0; TEXT_MAX];
    let mut read = || {
        let field = order::field(field)?;
        let length = windows1251::encode(text, &mut bytes).map_err(Mistake::Character)?;
        let most = u8::try_from(length).ok().filter(|_| length <= TEXT_MAX);
        Ok((field, most.ok_or(Mistake::Long(length))?))
    };
    let (field, length) = read().map_err(|mistake| shown::mistake(&mistake))?;
    Ok((field, length, bytes))
}

/// The lines FIELD TEXT of a sheet's texts that are not blank.
fn texts(sheet: &Sheet) -> impl Iterator<Item = (u8, String)> + '_ {
    let slots = sheet.chunks_exact(SHEET_SLOT_SIZE).zip(FIELDS);
    slots.filter_map(|(slot, field)| match slot {
        [length, text @ ..] if *length > 0 => {
            let text = text.get(..usize::from(*length)).unwrap_or(text);
            Some((field, windows1251::text(text)))
        }
        _ => None,
    })
}

/// The slot of a listed field.
fn slot(field: u8) -> Option<usize> {
    FIELDS.iter().position(|&listed| listed == field)
}

/// What a class is.
fn of_class(class: Class) -> &'static str {
    match class {
        Class::A => "Accepted: class A, a budget payment to an account at the treasury.",
        Class::B => "Accepted: class B, a budget payment to a bank account kept for a budget.",
        Class::O => "Accepted: class O, an ordinary payment.",
    }
}

/// `check SHEET`.
pub fn check(given: &[OsString]) -> Answer {
    let arguments = parse(given, &["--json"], &dates::OPTIONS)?;
    let input = Input::read(arguments.one("SHEET")?)?;
    let terms = dates(&arguments)?;
    let sheet = sheet(&input)?;
    let is_json = arguments.has("--json");
    let checked = kieselbrot::check(&sheet, terms);
    let text = match (checked, is_json) {
        (Ok(class), true) => json::line(|object| {
            object.value("answer", 0);
            object.text("class", &format!("{class:?}"));
        }),
        (Ok(class), false) => format!("{}\n", of_class(class)),
        (Err(refusal), true) => json::line(|object| {
            refused(object, refusal);
            broken(object, &sheet, terms);
        }),
        (Err(Refusal::Broken { .. }), false) => {
            let broken = words::broken(&sheet, terms);
            broken.iter().map(|(_, line)| format!("{line}\n")).collect()
        }
        (Err(refusal), false) => words::lines_not_written(refusal, terms) + "\n",
    };
    write_all(text.as_bytes())?;
    Ok(match checked {
        Ok(_) => Status::Done,
        Err(_) => Status::Refused,
    })
}

/// `swift SHEET` and `swift --read BLOCK`.
pub fn swift(given: &[OsString]) -> Answer {
    let arguments = parse(given, &["--json", "--read"], &dates::OPTIONS)?;
    let is_json = arguments.has("--json");
    if arguments.has("--read") {
        let given = dates::OPTIONS.into_iter().find(|name| arguments.has(name));
        if let Some(option) = given {
            return Err(Failure::Usage(format!("--read takes no {option}")));
        }
        return read_block(&Input::read(arguments.one("BLOCK")?)?, is_json);
    }
    let input = Input::read(arguments.one("SHEET")?)?;
    let terms = dates(&arguments)?;
    let sheet = sheet(&input)?;
    let mut block = [0; LINES_BLOCK_MAX];
    match kieselbrot::write_lines(&sheet, terms, &mut block) {
        Ok(length) => {
            let block = windows1251::text(&block[..length.min(LINES_BLOCK_MAX)]);
            let text = match is_json {
                true => json::line(|object| {
                    object.value("answer", 0);
                    object.array("lines", block.lines(), json::string);
                }),
                false => block,
            };
            write_all(text.as_bytes())?;
            Ok(Status::Done)
        }
        Err(refusal) => refuse(refusal, &words::lines_not_written(refusal, terms), is_json),
    }
}

fn read_block(input: &Input, is_json: bool) -> Answer {
    let mut sheet = [0; SHEET_SIZE];
    match kieselbrot::read_lines(&input.bytes, &mut sheet) {
        Ok(()) => {
            let text = match is_json {
                true => json::line(|object| {
                    object.value("answer", 0);
                    object.array("fields", texts(&sheet), |out, (field, text)| {
                        json::object(out, |object| {
                            object.value("field", field);
                            object.text("text", &text);
                        });
                    });
                }),
                false => texts(&sheet)
                    .map(|(field, text)| format!("{field} {text}\n"))
                    .collect(),
            };
            write_all(text.as_bytes())?;
            Ok(Status::Done)
        }
        Err(refusal) => refuse(refusal, &words::lines_not_read(refusal), is_json),
    }
}

/// Tells a refusal: in words on standard error, where the lines are missing, or as JSON.
pub fn refuse(refusal: Refusal, words: &str, is_json: bool) -> Answer {
    if is_json {
        let line = json::line(|object| {
            refused(object, refusal);
            object.text("words", words);
        });
        write_all(line.as_bytes())?;
    } else {
        crate::tell(words);
    }
    Ok(Status::Refused)
}

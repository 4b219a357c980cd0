//! One call of both, and what must agree after it.

use std::fmt::{self, Debug, Write as _};
use std::hint::black_box;

use cases::{Charge, Dates, Parting, Pooling, Queue, Sharing, FIELDS};
use cases::{DRAFT_SLOT_SIZE, PAYMENT_PLACES, SHARE_PLACES};
use kieselbrot::{Class, Completed, Message, Posted, Quickened, Refusal};

use crate::broken::fits_check;
use crate::library::{Library, Reference};
use crate::pretest::{fits_completion, Tested};
use crate::reached::Reached;

/// A call on which the two differ.
#[derive(Clone, Debug)]
pub struct Difference {
    /// The function called.
    pub function: &'static str,
    /// What it got.
    pub input: String,
    /// What the library did.
    pub library: String,
    /// What it should have done.
    pub expected: String,
}

impl fmt::Display for Difference {
    fn fmt(&self, f: &mut fmt::Formatter<'_>) -> fmt::Result {
        writeln!(f, "{} of {}", self.function, self.input)?;
        writeln!(f, "  library:  {}", self.library)?;
        write!(f, "  expected: {}", self.expected)
    }
}

/// Bytes in hexadecimal.
pub fn hex(bytes: &[u8]) -> String {
    let mut digits = format!("{} bytes ", bytes.len());
    for byte in bytes {
        // Writing to a string never fails.
        let _ = write!(digits, "{byte:02x}");
    }
    digits
}

/// A sheet's or draft's texts as `FIELD=TEXT`, and its bytes.
fn shown(bytes: &[u8], slot_size: usize) -> String {
    let text = |slot: &[u8]| {
        let slot = slot.get(slot_size - 26..).unwrap_or_default();
        let length = slot.first().copied().unwrap_or_default();
        let text = slot.iter().skip(1).take(usize::from(length));
        text.copied().collect::<Vec<u8>>()
    };
    let texts: Vec<String> = bytes
        .chunks(slot_size)
        .zip(FIELDS)
        .map(|(slot, field)| format!("{field}={}", text(slot).escape_ascii()))
        .collect();
    format!("{} ({})", texts.join(" "), hex(bytes))
}

fn shown_sheet(sheet: &[u8]) -> String {
    shown(sheet, 26)
}

fn shown_draft(draft: &[u8]) -> String {
    shown(draft, DRAFT_SLOT_SIZE)
}

/// A buffer to lend, amid bytes that nobody may touch.
#[derive(Clone, PartialEq, Eq)]
pub struct Lent {
    area: Vec<u8>,
    size: usize,
}

impl Lent {
    const GUARD: usize = 48;

    /// A buffer with this content.
    pub fn new(content: &[u8]) -> Self {
        let mut lent = Self::filled(content.len(), 0);
        lent.bytes_mut().copy_from_slice(content);
        lent
    }

    /// A buffer of this size, each byte the same.
    pub fn filled(size: usize, byte: u8) -> Self {
        let mut lent = Self {
            area: vec![0xA5; Self::GUARD + size + Self::GUARD],
            size,
        };
        lent.bytes_mut().fill(byte);
        lent
    }

    /// The lent bytes.
    pub fn bytes(&self) -> &[u8] {
        &self.area[Self::GUARD..][..self.size]
    }

    fn bytes_mut(&mut self) -> &mut [u8] {
        &mut self.area[Self::GUARD..][..self.size]
    }

    /// Where the bytes, with those around them, first differ.
    fn difference(&self, other: &Self) -> Option<isize> {
        let mut both = self.area.iter().zip(&other.area);
        let place = both.position(|(byte, other)| byte != other)?;
        Some(place as isize - Self::GUARD as isize)
    }
}

/// Places to lend, amid others that nobody may touch.
#[repr(C)]
#[derive(Clone, Debug, PartialEq, Eq)]
struct Places<T, const COUNT: usize> {
    ahead: [T; GUARD_PLACES],
    lent: [T; COUNT],
    behind: [T; GUARD_PLACES],
}

/// How many places stand on either side.
const GUARD_PLACES: usize = 6;

impl<T: Copy, const COUNT: usize> Places<T, COUNT> {
    const fn amid(guard: T, lent: [T; COUNT]) -> Self {
        Self {
            ahead: [guard; GUARD_PLACES],
            lent,
            behind: [guard; GUARD_PLACES],
        }
    }
}

/// The library, compared call by call with the second implementation.
pub struct Comparison<'a, L> {
    library: &'a L,
    /// What the calls so far have reached.
    pub reached: Reached,
}

type Outcome<T> = Result<T, Difference>;

impl<'a, L: Library> Comparison<'a, L> {
    /// A comparison that has reached nothing yet.
    pub fn new(library: &'a L) -> Self {
        Self {
            library,
            reached: Reached::default(),
        }
    }

    /// The library that is compared.
    pub fn library(&self) -> &'a L {
        self.library
    }

    /// Checks a sheet at these dates.
    pub fn check(&mut self, sheet: &[u8], dates: Dates) -> Outcome<Result<Class, Refusal>> {
        let input = || format!("sheet {}, {dates:?}", shown_sheet(sheet));
        let answer = self.library.check(sheet, dates);
        same("check", answer, Reference.check(sheet, dates), input)?;
        self.reached.check(sheet, dates, answer);
        self.broken_rules(sheet, dates, answer)?;
        Ok(answer)
    }

    /// Asks for all broken rules of a sheet, of which a check at these dates answered this.
    fn broken_rules(
        &mut self,
        sheet: &[u8],
        dates: Dates,
        checked: Result<Class, Refusal>,
    ) -> Outcome<()> {
        let input = || format!("sheet {}, {dates:?}", shown_sheet(sheet));
        let answer = self.library.broken_rules(sheet, dates);
        let expected = Reference.broken_rules(sheet, dates);
        same("broken_rules", answer, expected, input)?;
        fits_check(checked, answer, input)?;
        self.reached.broken_rules(answer);
        Ok(())
    }

    /// Asks which message of an input each slot holds.
    pub fn origins(&mut self, input: &[u8]) -> Outcome<()> {
        let shown = || format!("input {}", hex(input));
        let answer = self.library.origins(input);
        same("origins", answer, Reference.origins(input), shown)?;
        self.reached.origins(input, &answer);
        Ok(())
    }

    /// Reads a message; its text must be the same part of it, by place and length.
    pub fn read<'m>(&mut self, message: &'m [u8]) -> Outcome<Result<Message<'m>, Refusal>> {
        let input = || format!("message {}", hex(message));
        let answer = self.library.read(message);
        let expected = Reference.read(message);
        same("read", answer, expected, input)?;
        let part = |answer: Result<Message<'m>, Refusal>| {
            answer.map(|message| message.text.as_ptr_range())
        };
        same("read", part(answer), part(expected), input)?;
        self.reached.read(message, answer);
        Ok(answer)
    }

    /// Writes a message into a buffer, which is given back.
    pub fn write(
        &mut self,
        message: &Message<'_>,
        before: Lent,
    ) -> Outcome<(Result<usize, Refusal>, Lent)> {
        let input = || format!("{message:?}, buffer of {}", before.size);
        let (answer, buffer) = self.lend("write", &before, input, |library, buffer| {
            library.write(message, buffer)
        })?;
        self.reached.write(message, before.size, answer);
        Ok((answer, buffer))
    }

    /// Makes a draft fresh, which is given back.
    pub fn fresh(&mut self, before: Lent) -> Outcome<Lent> {
        let input = || format!("draft {}", shown_draft(before.bytes()));
        let (answer, draft) = self.lend("fresh", &before, input, |library, draft| {
            library.fresh(draft)
        })?;
        self.reached.answer("fresh", answer);
        Ok(draft)
    }

    /// Posts a message to a draft, which is changed.
    pub fn post(&mut self, draft: &mut Lent, message: &[u8]) -> Outcome<Result<Posted, Refusal>> {
        let input = || {
            format!(
                "draft {}, message {}",
                shown_draft(draft.bytes()),
                hex(message)
            )
        };
        let (answer, after) = self.lend("post", draft, input, |library, draft| {
            library.post(draft, message)
        })?;
        self.reached.post(draft.bytes(), message, answer);
        *draft = after;
        Ok(answer)
    }

    /// Copies a draft to a sheet, which is given back.
    pub fn copy(&mut self, draft: &[u8], before: Lent) -> Outcome<Lent> {
        let input = || format!("draft {}, sheet of {}", shown_draft(draft), before.size);
        let (answer, sheet) = self.lend("copy", &before, input, |library, sheet| {
            library.copy(draft, sheet)
        })?;
        self.reached.copy(draft, answer);
        Ok(sheet)
    }

    /// Tests a draft ahead of completion.
    fn pretest(&mut self, draft: &[u8]) -> Outcome<Tested> {
        let input = || format!("draft {}", shown_draft(draft));
        let answer = lend_to_read("pretest", draft, input, |draft| {
            let answer = self.library.pretest(draft);
            same("pretest", answer, Reference.pretest(draft), input)?;
            Ok(answer)
        })?;
        self.reached.answer("pretest", answer);
        Ok(answer)
    }

    /// Asks for an entry of a field's list at these dates.
    pub fn entry(&mut self, field: u8, place: usize, dates: Dates) -> Outcome<()> {
        let input = || format!("field {field}, place {place}, {dates:?}");
        let answer = self.library.entry(field, place, dates);
        let expected = Reference.entry(field, place, dates);
        same("entry", answer.clone(), expected, input)?;
        self.reached.answer("entry", answer);
        Ok(())
    }

    /// Tests a draft and completes it at these dates, also quickly; the sheet is given
    /// back. What the test answers must fit, and both completions must agree.
    pub fn complete(
        &mut self,
        draft: &[u8],
        before: Lent,
        dates: Dates,
    ) -> Outcome<(Result<Completed, Refusal>, Lent)> {
        let input = || {
            let (draft, size) = (shown_draft(draft), before.size);
            format!("draft {draft}, sheet of {size}, {dates:?}")
        };
        let tested = self.pretest(draft)?;
        let (answer, sheet) = lend_to_read("complete", draft, input, |draft| {
            self.lend("complete", &before, input, |library, sheet| {
                library.complete(draft, sheet, dates)
            })
        })?;
        fits_completion(draft, dates, tested, answer)?;
        self.reached
            .complete(draft, dates, tested, answer, sheet.bytes());
        let (quickened, filled) = self.quick(draft, &before, dates, input)?;
        same("quick", quickened.completed, answer, input)?;
        same_buffer("quick", &filled, &sheet, input)?;
        Ok((answer, sheet))
    }

    /// Completes a draft quickly at these dates; the sheet is given back.
    fn quick(
        &mut self,
        draft: &[u8],
        before: &Lent,
        dates: Dates,
        input: impl Fn() -> String + Copy,
    ) -> Outcome<(Quickened, Lent)> {
        let (answer, sheet) = lend_to_read("quick", draft, input, |draft| {
            self.lend("quick", before, input, |library, sheet| {
                let Quickened { completed, skipped } = library.quick(draft, sheet, dates);
                completed
                    .map(|completed| (completed, skipped))
                    .map_err(|refusal| (refusal, skipped))
            })
        })?;
        let (completed, skipped) = match answer {
            Ok((completed, skipped)) => (Ok(completed), skipped),
            Err((refusal, skipped)) => (Err(refusal), skipped),
        };
        let quickened = Quickened { completed, skipped };
        self.reached.quick(draft, dates, quickened, sheet.bytes());
        Ok((quickened, sheet))
    }

    /// Takes up values of a sheet, which must stay, to a draft, which is changed.
    pub fn take_up(
        &mut self,
        draft: &mut Lent,
        sheet: &[u8],
        set: u16,
    ) -> Outcome<Result<(), Refusal>> {
        let input = || {
            let (draft, sheet) = (shown_draft(draft.bytes()), shown_sheet(sheet));
            format!("draft {draft}, sheet {sheet}, set {set:#06x}")
        };
        let (answer, after) = lend_to_read("take_up", sheet, input, |sheet| {
            self.lend("take_up", draft, input, |library, draft| {
                library.take_up(draft, sheet, set)
            })
        })?;
        self.reached.take_up(draft.bytes(), sheet, set, answer);
        *draft = after;
        Ok(answer)
    }

    /// Writes the MT103 lines of a sheet, which must stay, into a buffer, which is given back.
    pub fn write_lines(
        &mut self,
        sheet: &[u8],
        dates: Dates,
        before: &Lent,
    ) -> Outcome<(Result<usize, Refusal>, Lent)> {
        let input = || {
            let (sheet, size) = (shown_sheet(sheet), before.size);
            format!("sheet {sheet}, {dates:?}, buffer of {size}")
        };
        let (answer, buffer) = lend_to_read("write_lines", sheet, input, |sheet| {
            self.lend("write_lines", before, input, |library, buffer| {
                library.write_lines(sheet, dates, buffer)
            })
        })?;
        self.reached.write_lines(sheet, dates, before.size, answer);
        Ok((answer, buffer))
    }

    /// Reads a block of MT103 lines, which must stay, into a sheet, which is given back.
    pub fn read_lines(
        &mut self,
        block: &[u8],
        before: &Lent,
    ) -> Outcome<(Result<(), Refusal>, Lent)> {
        let input = || format!("block {}, sheet of {}", block.escape_ascii(), before.size);
        let (answer, sheet) = lend_to_read("read_lines", block, input, |block| {
            self.lend("read_lines", before, input, |library, sheet| {
                library.read_lines(block, sheet)
            })
        })?;
        self.reached.read_lines(block, answer);
        Ok((answer, sheet))
    }

    /// Asks for a charge.
    pub fn charge(&mut self, charge: &Charge) -> Outcome<()> {
        let ask = |library: &dyn Library| {
            library.charge(charge.amount, charge.rate, charge.least, charge.greatest)
        };
        let answer = ask(self.library);
        same("charge", answer, ask(&Reference), || format!("{charge:?}"))?;
        self.reached.charge(charge, answer);
        Ok(())
    }

    /// Asks for a part of a year.
    pub fn part(&mut self, parting: &Parting) -> Outcome<()> {
        let ask = |library: &dyn Library| library.part(parting.amount, parting.days, parting.year);
        let answer = ask(self.library);
        same("part", answer, ask(&Reference), || format!("{parting:?}"))?;
        self.reached.part(parting, answer);
        Ok(())
    }

    /// Asks for shares, in places with this content. Answers, places and those around
    /// them must agree, and be as before after a refusal; the periods must stay.
    pub fn shares(&mut self, sharing: &Sharing, before: &[u64; SHARE_PLACES]) -> Outcome<()> {
        let input = || format!("{sharing:?}, places {before:?}");
        let lent = black_box(sharing.clone());
        let fresh = || Places::amid(0xA5A5_A5A5_A5A5_A5A5, *before);
        let ask = |library: &dyn Library| {
            let mut places = fresh();
            let given = &mut black_box(&mut places).lent;
            let answer = library.shares(lent.amount, lent.year, &lent.periods, given);
            (answer, black_box(places))
        };
        let (answer, places) = ask(self.library);
        let (expected, right) = ask(&Reference);
        same("shares", answer, expected, input)?;
        same("shares", &places, &right, input)?;
        if answer.is_err() {
            same("shares", &places, &fresh(), input)?;
        }
        same("shares", black_box(&lent), sharing, input)?;
        let made = answer.map(|()| places.lent);
        self.reached.shares(sharing, before, made);
        Ok(())
    }

    /// Pools the lines of a register, which must stay, into an output.
    pub fn pool(&mut self, pooling: &Pooling, before: &Lent) -> Outcome<()> {
        let Pooling {
            ref register,
            amount,
        } = *pooling;
        let input = || {
            let (register, output) = (hex(register), hex(before.bytes()));
            format!("register {register}, amount {amount}, output {output}")
        };
        let (answer, after) = lend_to_read("pool", register, input, |register| {
            self.lend("pool", before, input, |library, output| {
                library.pool(register, amount, output)
            })
        })?;
        let (before, after) = (before.bytes(), after.bytes());
        self.reached.pool(pooling, before, after, answer);
        Ok(())
    }

    /// Asks which payments leave first, in places with this content. Answers, places and
    /// those around them must agree, and be as before after a refusal; the payments must
    /// stay.
    pub fn leave(&mut self, queue: &Queue, before: &[u32; PAYMENT_PLACES]) -> Outcome<()> {
        let input = || format!("{queue:?}, places {before:?}");
        let lent = black_box(queue.clone());
        let fresh = || Places::amid(0xA5A5_A5A5, *before);
        let ask = |library: &dyn Library| {
            let mut places = fresh();
            let answer = library.leave(&lent, &mut black_box(&mut places).lent);
            (answer, black_box(places))
        };
        let (answer, places) = ask(self.library);
        let (expected, right) = ask(&Reference);
        same("leave", answer, expected, input)?;
        same("leave", &places, &right, input)?;
        if answer.is_err() {
            same("leave", &places, &fresh(), input)?;
        }
        same("leave", black_box(&lent), queue, input)?;
        self.reached.leave(queue, before, answer);
        Ok(())
    }

    /// Lends a copy of the buffer to each; answers, buffers and the bytes around
    /// them must agree, and be as before after a refusal.
    fn lend<T: Copy + Debug + PartialEq, E: Copy + Debug + PartialEq>(
        &self,
        function: &'static str,
        before: &Lent,
        input: impl Fn() -> String + Copy,
        call: impl Fn(&dyn Library, &mut [u8]) -> Result<T, E>,
    ) -> Outcome<(Result<T, E>, Lent)> {
        let mut left = before.clone();
        let mut right = before.clone();
        let answer = call(self.library, left.bytes_mut());
        let expected = call(&Reference, right.bytes_mut());
        same(function, answer, expected, input)?;
        same_buffer(function, &left, &right, input)?;
        if answer.is_err() {
            same_buffer(function, &left, before, input)?;
        }
        Ok((answer, left))
    }
}

/// Lends a draft, a sheet, lines or a register, which must stay as it is, with the bytes around it.
fn lend_to_read<T>(
    function: &'static str,
    bytes: &[u8],
    input: impl Fn() -> String,
    call: impl FnOnce(&[u8]) -> Outcome<T>,
) -> Outcome<T> {
    let lent = Lent::new(bytes);
    let outcome = call(black_box(lent.bytes()))?;
    // A shared borrow is no proof against a library that writes all the same.
    same_buffer(function, black_box(&lent), &Lent::new(bytes), input)?;
    Ok(outcome)
}

/// Holds an answer against the expected one.
pub fn same<T: PartialEq + Debug>(
    function: &'static str,
    answer: T,
    expected: T,
    input: impl Fn() -> String,
) -> Outcome<()> {
    if answer == expected {
        return Ok(());
    }
    Err(Difference {
        function,
        input: input(),
        library: format!("{answer:?}"),
        expected: format!("{expected:?}"),
    })
}

fn same_buffer(
    function: &'static str,
    buffer: &Lent,
    expected: &Lent,
    input: impl Fn() -> String,
) -> Outcome<()> {
    let Some(place) = (buffer != expected)
        .then(|| buffer.difference(expected))
        .flatten()
    else {
        return Ok(());
    };
    let seen = |lent: &Lent| format!("from place {place} on: {}", hex(lent.bytes()));
    Err(Difference {
        function,
        input: input(),
        library: seen(buffer),
        expected: seen(expected),
    })
}

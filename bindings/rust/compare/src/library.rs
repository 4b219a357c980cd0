//! The library and the second implementation under one trait.

use cases::{Dates, Queue};
use kieselbrot::{Broken, Class, Completed, Message, Paid, Part, Posted, Quickened, Refusal};
use kieselbrot::{BrokenRules, Party, Version, FIELDS};
use kieselbrot::{PAYMENT_PLACES, SHARE_PLACES};

/// The seven functions of document 01, all broken rules, the origins of an input's slots, the
/// test ahead of completion, an entry of a list, completing quickly,
/// taking up part of a proposal, MT103 lines, the bank's charge, part of a year, pooling a
/// register, and which payments leave first.
pub trait Library: Sync {
    /// Checks a sheet at these dates.
    fn check(&self, sheet: &[u8], dates: Dates) -> Result<Class, Refusal>;
    /// All rules that a sheet breaks at these dates.
    fn broken_rules(&self, sheet: &[u8], dates: Dates) -> Result<BrokenRules, Refusal>;
    /// Reads a message.
    fn read<'a>(&self, message: &'a [u8]) -> Result<Message<'a>, Refusal>;
    /// Writes a message; its version, party, field, revision and text may be any.
    fn write(&self, message: &Message<'_>, buffer: &mut [u8]) -> Result<usize, Refusal>;
    /// Makes a draft fresh.
    fn fresh(&self, draft: &mut [u8]) -> Result<(), Refusal>;
    /// Posts a message.
    fn post(&self, draft: &mut [u8], message: &[u8]) -> Result<Posted, Refusal>;
    /// Which message of an input each slot holds.
    fn origins(&self, input: &[u8]) -> [u64; FIELDS.len()];
    /// Copies a draft to a sheet.
    fn copy(&self, draft: &[u8], sheet: &mut [u8]) -> Result<(), Refusal>;
    /// Tests a draft ahead of completion.
    fn pretest(&self, draft: &[u8]) -> Result<Option<Broken>, Refusal>;
    /// An entry of a field's list at these dates.
    fn entry(&self, field: u8, place: usize, dates: Dates) -> Result<Option<Vec<u8>>, Refusal>;
    /// Completes a draft at these dates.
    fn complete(&self, draft: &[u8], sheet: &mut [u8], dates: Dates) -> Result<Completed, Refusal>;
    /// Completes a draft quickly at these dates.
    fn quick(&self, draft: &[u8], sheet: &mut [u8], dates: Dates) -> Quickened;
    /// Takes up the values of a set of slots of a sheet.
    fn take_up(&self, draft: &mut [u8], sheet: &[u8], set: u16) -> Result<(), Refusal>;
    /// Writes the MT103 lines of a sheet at these dates.
    fn write_lines(&self, sheet: &[u8], dates: Dates, buffer: &mut [u8]) -> Result<usize, Refusal>;
    /// Reads MT103 lines.
    fn read_lines(&self, block: &[u8], sheet: &mut [u8]) -> Result<(), Refusal>;
    /// The bank's charge for an amount.
    fn charge(&self, amount: u64, rate: u64, least: u64, greatest: u64) -> Result<u64, Refusal>;
    /// The part of a year's amount for so many days.
    fn part(&self, amount: u64, days: u32, year: u32) -> Result<Part, Refusal>;
    /// A year's amount shared among periods.
    fn shares(
        &self,
        amount: u64,
        year: u32,
        periods: &[u32],
        places: &mut [u64; SHARE_PLACES],
    ) -> Result<(), Refusal>;
    /// Pools the lines of a register.
    fn pool(&self, register: &[u8], amount: u64, output: &mut [u8]) -> Result<usize, Refusal>;
    /// Which payments leave first.
    fn leave(&self, queue: &Queue, places: &mut [u32; PAYMENT_PLACES]) -> Result<Paid, Refusal>;
}

/// The proved library, as linked.
pub struct Linked;

impl Library for Linked {
    fn check(&self, sheet: &[u8], dates: Dates) -> Result<Class, Refusal> {
        kieselbrot::check(sheet, terms(dates))
    }

    fn broken_rules(&self, sheet: &[u8], dates: Dates) -> Result<BrokenRules, Refusal> {
        kieselbrot::broken_rules(sheet, terms(dates))
    }

    fn read<'a>(&self, message: &'a [u8]) -> Result<Message<'a>, Refusal> {
        kieselbrot::read(message)
    }

    fn write(&self, message: &Message<'_>, buffer: &mut [u8]) -> Result<usize, Refusal> {
        let Message {
            version,
            party,
            field,
            revision,
            text,
        } = *message;
        kieselbrot::write(version, party, field, revision, text, buffer)
    }

    fn fresh(&self, draft: &mut [u8]) -> Result<(), Refusal> {
        kieselbrot::fresh(draft)
    }

    fn post(&self, draft: &mut [u8], message: &[u8]) -> Result<Posted, Refusal> {
        kieselbrot::post(draft, message)
    }

    fn origins(&self, input: &[u8]) -> [u64; FIELDS.len()] {
        kieselbrot::origins(input)
    }

    fn copy(&self, draft: &[u8], sheet: &mut [u8]) -> Result<(), Refusal> {
        kieselbrot::copy(draft, sheet)
    }

    fn pretest(&self, draft: &[u8]) -> Result<Option<Broken>, Refusal> {
        kieselbrot::pretest(draft)
    }

    fn entry(&self, field: u8, place: usize, dates: Dates) -> Result<Option<Vec<u8>>, Refusal> {
        let entry = kieselbrot::entry(field, place, terms(dates))?;
        Ok(entry.map(|entry| entry.to_vec()))
    }

    fn complete(&self, draft: &[u8], sheet: &mut [u8], dates: Dates) -> Result<Completed, Refusal> {
        kieselbrot::complete(draft, sheet, terms(dates))
    }

    fn quick(&self, draft: &[u8], sheet: &mut [u8], dates: Dates) -> Quickened {
        kieselbrot::quick(draft, sheet, terms(dates))
    }

    fn take_up(&self, draft: &mut [u8], sheet: &[u8], set: u16) -> Result<(), Refusal> {
        kieselbrot::take_up(draft, sheet, set)
    }

    fn write_lines(&self, sheet: &[u8], dates: Dates, buffer: &mut [u8]) -> Result<usize, Refusal> {
        kieselbrot::write_lines(sheet, terms(dates), buffer)
    }

    fn read_lines(&self, block: &[u8], sheet: &mut [u8]) -> Result<(), Refusal> {
        kieselbrot::read_lines(block, sheet)
    }

    fn charge(&self, amount: u64, rate: u64, least: u64, greatest: u64) -> Result<u64, Refusal> {
        kieselbrot::charge(amount, rate, least, greatest)
    }

    fn part(&self, amount: u64, days: u32, year: u32) -> Result<Part, Refusal> {
        kieselbrot::part(amount, days, year)
    }

    fn shares(
        &self,
        amount: u64,
        year: u32,
        periods: &[u32],
        places: &mut [u64; SHARE_PLACES],
    ) -> Result<(), Refusal> {
        kieselbrot::shares_into(amount, year, periods, places)
    }

    fn pool(&self, register: &[u8], amount: u64, output: &mut [u8]) -> Result<usize, Refusal> {
        kieselbrot::pool(register, amount, output)
    }

    fn leave(&self, queue: &Queue, places: &mut [u32; PAYMENT_PLACES]) -> Result<Paid, Refusal> {
        let Queue {
            balance,
            ref priorities,
            ref arrivals,
            ref amounts,
        } = *queue;
        kieselbrot::leave_into(balance, priorities, arrivals, amounts, places)
    }
}

/// The second implementation, with its answers in the library's types.
pub struct Reference;

impl Library for Reference {
    fn check(&self, sheet: &[u8], dates: Dates) -> Result<Class, Refusal> {
        let (date, record) = reference_dates(dates);
        let checked = reference::check(sheet, date, record);
        checked.map(class).map_err(refusal)
    }

    fn broken_rules(&self, sheet: &[u8], dates: Dates) -> Result<BrokenRules, Refusal> {
        let (date, record) = reference_dates(dates);
        let bits = reference::broken_rules(sheet, date, record).map_err(refusal)?;
        BrokenRules::new(bits).ok_or(Refusal::Unknown { number: 0 })
    }

    fn read<'a>(&self, message: &'a [u8]) -> Result<Message<'a>, Refusal> {
        let reference::Message {
            version,
            party,
            field,
            revision,
            text,
        } = reference::read(message).map_err(refusal)?;
        Ok(Message {
            version: Version(version),
            party: Party(party),
            field,
            revision,
            text,
        })
    }

    fn write(&self, message: &Message<'_>, buffer: &mut [u8]) -> Result<usize, Refusal> {
        let Message {
            version: Version(version),
            party: Party(party),
            field,
            revision,
            text,
        } = *message;
        reference::write(version, party, field, revision, text, buffer).map_err(refusal)
    }

    fn fresh(&self, draft: &mut [u8]) -> Result<(), Refusal> {
        reference::fresh(draft).map_err(refusal)
    }

    fn post(&self, draft: &mut [u8], message: &[u8]) -> Result<Posted, Refusal> {
        reference::post(draft, message).map(posted).map_err(refusal)
    }

    fn origins(&self, input: &[u8]) -> [u64; FIELDS.len()] {
        reference::origins(input)
    }

    fn copy(&self, draft: &[u8], sheet: &mut [u8]) -> Result<(), Refusal> {
        reference::copy(draft, sheet).map_err(refusal)
    }

    fn pretest(&self, draft: &[u8]) -> Result<Option<Broken>, Refusal> {
        let named = reference::pretest(draft).map_err(refusal)?;
        Ok(named.map(broken))
    }

    fn entry(&self, field: u8, place: usize, dates: Dates) -> Result<Option<Vec<u8>>, Refusal> {
        let (date, record) = reference_dates(dates);
        let entry = reference::entry(field, place, date, record).map_err(refusal)?;
        Ok(entry.map(<[u8]>::to_vec))
    }

    fn complete(&self, draft: &[u8], sheet: &mut [u8], dates: Dates) -> Result<Completed, Refusal> {
        let (date, record) = reference_dates(dates);
        let answer = reference::complete(draft, sheet, date, record);
        answer.map(completed).map_err(refusal)
    }

    fn quick(&self, draft: &[u8], sheet: &mut [u8], dates: Dates) -> Quickened {
        let (date, record) = reference_dates(dates);
        let reference::Quick { answer, skipped } = reference::quick(draft, sheet, date, record);
        Quickened {
            completed: answer.map(completed).map_err(refusal),
            skipped: skipped as usize,
        }
    }

    fn take_up(&self, draft: &mut [u8], sheet: &[u8], set: u16) -> Result<(), Refusal> {
        reference::take_up(draft, sheet, set).map_err(refusal)
    }

    fn write_lines(&self, sheet: &[u8], dates: Dates, buffer: &mut [u8]) -> Result<usize, Refusal> {
        let (date, record) = reference_dates(dates);
        reference::write_lines(sheet, date, record, buffer).map_err(refusal)
    }

    fn read_lines(&self, block: &[u8], sheet: &mut [u8]) -> Result<(), Refusal> {
        reference::read_lines(block, sheet).map_err(refusal)
    }

    fn charge(&self, amount: u64, rate: u64, least: u64, greatest: u64) -> Result<u64, Refusal> {
        reference::charge(amount, rate, least, greatest).map_err(refusal)
    }

    fn part(&self, amount: u64, days: u32, year: u32) -> Result<Part, Refusal> {
        let reference::Part {
            quotient,
            remainder,
        } = reference::part(amount, days, year).map_err(refusal)?;
        Ok(Part {
            kopecks: quotient,
            remainder,
        })
    }

    fn shares(
        &self,
        amount: u64,
        year: u32,
        periods: &[u32],
        places: &mut [u64; SHARE_PLACES],
    ) -> Result<(), Refusal> {
        *places = reference::shares(amount, year, periods).map_err(refusal)?;
        Ok(())
    }

    fn pool(&self, register: &[u8], amount: u64, output: &mut [u8]) -> Result<usize, Refusal> {
        reference::pool(register, amount, output).map_err(refusal)
    }

    /// The second implementation has payments in one list; lists of different lengths are
    /// refused for it.
    fn leave(&self, queue: &Queue, places: &mut [u32; PAYMENT_PLACES]) -> Result<Paid, Refusal> {
        let payments = queue.payments().ok_or(Refusal::Queue)?;
        let payments: Vec<_> = payments.iter().map(payment).collect();
        let reference::Leaving {
            order,
            paid,
            sum,
            left,
        } = reference::leave(queue.balance, &payments).map_err(refusal)?;
        *places = order;
        Ok(Paid {
            count: paid,
            sum,
            left,
        })
    }
}

/// The order's date and the record, as the library takes them.
fn terms(dates: Dates) -> kieselbrot::Terms {
    let [first32, first33, last02] = dates.entries().map(kieselbrot::Date);
    let record = kieselbrot::Record {
        first32,
        first33,
        last02,
    };
    kieselbrot::Terms::new(kieselbrot::Date(dates.order), record)
}

/// The same, as the second implementation takes them.
fn reference_dates(dates: Dates) -> (reference::Date, reference::Record) {
    let [first32, first33, last02] = dates.entries().map(reference::Date);
    let record = reference::Record {
        first32,
        first33,
        last02,
    };
    (reference::Date(dates.order), record)
}

const fn class(class: reference::Class) -> Class {
    match class {
        reference::Class::A => Class::A,
        reference::Class::B => Class::B,
        reference::Class::O => Class::O,
    }
}

const fn posted(posted: reference::Posted) -> Posted {
    match posted {
        reference::Posted::Newer => Posted::Newer,
        reference::Posted::Same => Posted::Same,
        reference::Posted::Older => Posted::Older,
    }
}

fn completed(completed: reference::Completed) -> Completed {
    let reference::Completed { count, set, ones } = completed;
    Completed {
        count: count as usize,
        set,
        ones,
    }
}

fn broken(broken: reference::Broken) -> Broken {
    let reference::Broken { field, rule } = broken;
    Broken { field, rule }
}

fn payment(payment: &cases::Payment) -> reference::Payment {
    let cases::Payment {
        priority,
        arrival,
        amount,
    } = *payment;
    reference::Payment {
        priority: priority.into(),
        arrival,
        amount,
    }
}

const fn refusal(refusal: reference::Refusal) -> Refusal {
    match refusal {
        reference::Refusal::Malformed => Refusal::Malformed,
        reference::Refusal::Length => Refusal::Length,
        reference::Refusal::Version => Refusal::UnknownVersion,
        reference::Refusal::UnknownField => Refusal::UnknownField,
        reference::Refusal::RevisionZero => Refusal::RevisionZero,
        reference::Refusal::Clash => Refusal::Clash,
        reference::Refusal::Output => Refusal::Output,
        reference::Refusal::Broken { field, rule } => Refusal::Broken { field, rule },
        reference::Refusal::Ordinary => Refusal::Ordinary,
        reference::Refusal::NoFilling { count } => Refusal::NoFilling {
            count: count as usize,
        },
        reference::Refusal::NoLines => Refusal::NoLines,
        reference::Refusal::Undated => Refusal::Undated,
        reference::Refusal::Party => Refusal::UnknownParty,
        reference::Refusal::Tariff => Refusal::Tariff,
        reference::Refusal::YearPart => Refusal::YearPart,
        reference::Refusal::Register => Refusal::Register,
        reference::Refusal::Discrepancy { difference } => Refusal::Discrepancy { difference },
        reference::Refusal::Queue => Refusal::Queue,
        reference::Refusal::EqualArrivals => Refusal::EqualArrivals,
        reference::Refusal::NotTakenUp { field } => Refusal::NotTakenUp { field },
    }
}

//! The C interface of the proved library, and all of this crate's `unsafe`.
//!
//! The functions are total: a slice of any length may be lent, and no byte
//! outside it is touched.

use std::mem::offset_of;

use crate::{Date, Party, Record, Terms, Version, FIELDS, PAYMENT_PLACES, SHARE_PLACES};

/// The answer of a check.
#[repr(C)]
#[derive(Clone, Copy)]
pub struct Check {
    pub number: u8,
    pub field: u8,
    pub rule: u8,
    pub class: u8,
}

/// The answer of asking for all broken rules.
#[repr(C)]
#[derive(Clone, Copy)]
pub struct AllBroken {
    pub number: u8,
    pub rules: u64,
}

/// The answer of asking for an entry of a list.
#[repr(C)]
#[derive(Clone, Copy)]
pub struct Entry {
    pub number: u8,
    pub length: u8,
    pub first: u8,
    pub second: u8,
}

/// The answer of reading a message; the text is `length` bytes from place `text`
/// on.
#[repr(C)]
#[derive(Clone, Copy)]
pub struct Read {
    pub number: u8,
    pub version: u8,
    pub party: u8,
    pub field: u8,
    pub revision: u32,
    pub text: usize,
    pub length: usize,
}

/// The answer of writing a message.
#[repr(C)]
#[derive(Clone, Copy)]
pub struct Write {
    pub number: u8,
    pub length: usize,
}

/// The answer of posting.
#[repr(C)]
#[derive(Clone, Copy)]
pub struct Post {
    pub number: u8,
    pub standing: u8,
}

/// The answer of the test ahead of completion.
#[repr(C)]
#[derive(Clone, Copy)]
pub struct Pretest {
    pub number: u8,
    pub field: u8,
    pub rule: u8,
}

/// The answer of completing, without the number of skipped statuses.
#[repr(C)]
#[derive(Clone, Copy)]
pub struct Complete {
    pub number: u8,
    pub field: u8,
    pub rule: u8,
    pub set: u16,
    pub ones: u32,
    pub count: usize,
}

/// The answer of completing: the header has the first six fields in one row with the last.
#[repr(C)]
#[derive(Clone, Copy)]
pub struct Quick {
    pub complete: Complete,
    pub skipped: usize,
}

/// The answer of taking up part of a proposal.
#[repr(C)]
#[derive(Clone, Copy)]
pub struct TakeUp {
    pub number: u8,
    pub field: u8,
}

/// The answer of writing MT103 lines.
#[repr(C)]
#[derive(Clone, Copy)]
pub struct Lines {
    pub number: u8,
    pub field: u8,
    pub rule: u8,
    pub length: usize,
}

/// The answer of a charge.
#[repr(C)]
#[derive(Clone, Copy)]
pub struct Charge {
    pub number: u8,
    pub kopecks: u64,
}

/// The answer of a part of a year.
#[repr(C)]
#[derive(Clone, Copy)]
pub struct Part {
    pub number: u8,
    pub remainder: u32,
    pub kopecks: u64,
}

/// The answer of pooling a register.
#[repr(C)]
#[derive(Clone, Copy)]
pub struct Pool {
    pub number: u8,
    pub lines: usize,
    pub difference: i64,
}

/// The answer of which payments leave.
#[repr(C)]
#[derive(Clone, Copy)]
pub struct Leave {
    pub number: u8,
    pub paid: usize,
    pub sum: u64,
    pub left: u64,
}

/// The answer of asking for the version.
#[repr(C)]
#[derive(Clone, Copy)]
pub struct LibraryVersion {
    pub major: u32,
    pub minor: u32,
    pub patch: u32,
}

// The sizes that bindings/c/kieselbrot.h has.
const _: () = assert!(size_of::<Date>() == 4);
const _: () = assert!(size_of::<Record>() == 12);
const _: () = assert!(size_of::<Version>() == 1 && size_of::<Party>() == 1);
const _: () = assert!(size_of::<Check>() == 4);
const _: () = assert!(size_of::<AllBroken>() == 16);
const _: () = assert!(size_of::<Entry>() == 4);
const _: () = assert!(size_of::<Read>() == 24);
const _: () = assert!(size_of::<Write>() == 16);
const _: () = assert!(size_of::<Post>() == 2);
const _: () = assert!(size_of::<Pretest>() == 3);
const _: () = assert!(size_of::<Complete>() == 24);
const _: () = assert!(size_of::<Quick>() == 32);
const _: () = assert!(size_of::<TakeUp>() == 2);
const _: () = assert!(size_of::<Lines>() == 16);
const _: () = assert!(size_of::<Charge>() == 16);
const _: () = assert!(size_of::<Part>() == 16);
const _: () = assert!(size_of::<Pool>() == 24);
const _: () = assert!(size_of::<Leave>() == 32);
const _: () = assert!(size_of::<LibraryVersion>() == 12);

/// Where the fields of a struct stand.
macro_rules! at {
    ($name:ident: $($field:ident $place:literal),*) => {
        const _: () = assert!($(offset_of!($name, $field) == $place)&&*);
    };
}

// The places that bindings/c/kieselbrot.h asserts.
at!(Record: first32 0, first33 4, last02 8);
at!(Check: number 0, field 1, rule 2, class 3);
at!(AllBroken: number 0, rules 8);
at!(Entry: number 0, length 1, first 2, second 3);
at!(Read: number 0, version 1, party 2, field 3, revision 4, text 8, length 16);
at!(Write: number 0, length 8);
at!(Post: number 0, standing 1);
at!(Pretest: number 0, field 1, rule 2);
at!(Complete: number 0, field 1, rule 2, set 4, ones 8, count 16);
at!(Quick: complete 0, skipped 24);
at!(TakeUp: number 0, field 1);
at!(Lines: number 0, field 1, rule 2, length 8);
at!(Charge: number 0, kopecks 8);
at!(Part: number 0, remainder 4, kopecks 8);
at!(Pool: number 0, lines 8, difference 16);
at!(Leave: number 0, paid 8, sum 16, left 24);
at!(LibraryVersion: major 0, minor 4, patch 8);

/// Declares functions of the library by the names that it has in this major version.
macro_rules! functions {
    ($($(#[$note:meta])* fn $name:ident($($argument:ident: $kind:ty),* $(,)?) $(-> $answer:ty)?;)*) => {
        extern "C" {
            $(
                $(#[$note])*
                #[link_name = concat!(
                    "kieselbrot_", env!("CARGO_PKG_VERSION_MAJOR"), "_", stringify!($name)
                )]
                pub fn $name($($argument: $kind),*) $(-> $answer)?;
            )*
        }
    };
}

/// The library's functions.
mod library {
    use super::*;

    functions! {
        fn check(sheet: *const u8, sheet_len: usize, date: Date, record: Record) -> Check;
        fn broken_rules(
            sheet: *const u8,
            sheet_len: usize,
            date: Date,
            record: Record,
        ) -> AllBroken;
        fn entry(field: u8, place: usize, date: Date, record: Record) -> Entry;
        fn read(message: *const u8, message_len: usize) -> Read;
        fn write(
            version: Version,
            party: Party,
            field: u8,
            revision: u32,
            text: *const u8,
            text_len: usize,
            buffer: *mut u8,
            buffer_len: usize,
        ) -> Write;
        fn fresh(draft: *mut u8, draft_len: usize) -> u8;
        fn post(
            draft: *mut u8,
            draft_len: usize,
            message: *const u8,
            message_len: usize,
        ) -> Post;
        fn origins(input: *const u8, input_len: usize, places: *mut [u64; FIELDS.len()]);
        fn copy(draft: *const u8, draft_len: usize, sheet: *mut u8, sheet_len: usize) -> u8;
        fn pretest(draft: *const u8, draft_len: usize) -> Pretest;
        fn complete(
            draft: *const u8,
            draft_len: usize,
            sheet: *mut u8,
            sheet_len: usize,
            date: Date,
            record: Record,
        ) -> Quick;
        fn take_up(
            draft: *mut u8,
            draft_len: usize,
            sheet: *const u8,
            sheet_len: usize,
            set: u16,
        ) -> TakeUp;
        fn write_lines(
            sheet: *const u8,
            sheet_len: usize,
            date: Date,
            record: Record,
            buffer: *mut u8,
            buffer_len: usize,
        ) -> Lines;
        fn read_lines(
            block: *const u8,
            block_len: usize,
            sheet: *mut u8,
            sheet_len: usize,
        ) -> u8;
        fn charge(amount: u64, rate: u64, least: u64, greatest: u64) -> Charge;
        fn part(amount: u64, days: u32, year: u32) -> Part;
        fn shares(
            amount: u64,
            year: u32,
            periods: *const u32,
            periods_len: usize,
            shares: *mut [u64; SHARE_PLACES],
        ) -> u8;
        fn pool(
            register: *const u8,
            register_len: usize,
            amount: u64,
            output: *mut u8,
            output_len: usize,
        ) -> Pool;
        fn leave(
            balance: u64,
            priorities: *const u8,
            priorities_len: usize,
            arrivals: *const u32,
            arrivals_len: usize,
            amounts: *const u64,
            amounts_len: usize,
            places: *mut [u32; PAYMENT_PLACES],
        ) -> Leave;
    }

    extern "C" {
        pub fn kieselbrot_version() -> LibraryVersion;
    }
}

#[inline]
pub fn check(sheet: &[u8], terms: Terms) -> Check {
    // SAFETY: pointer and length are one slice's, which outlives the call; the library keeps no pointer.
    unsafe { library::check(sheet.as_ptr(), sheet.len(), terms.date, terms.record) }
}

#[inline]
pub fn broken_rules(sheet: &[u8], terms: Terms) -> AllBroken {
    // SAFETY: pointer and length are one slice's, which outlives the call; the library keeps no pointer.
    unsafe { library::broken_rules(sheet.as_ptr(), sheet.len(), terms.date, terms.record) }
}

#[inline]
pub fn entry(field: u8, place: usize, terms: Terms) -> Entry {
    // SAFETY: numbers alone, and any may be given.
    unsafe { library::entry(field, place, terms.date, terms.record) }
}

#[inline]
pub fn read(message: &[u8]) -> Read {
    // SAFETY: pointer and length are one slice's, which outlives the call; the library keeps no pointer.
    unsafe { library::read(message.as_ptr(), message.len()) }
}

#[inline]
pub fn write(
    version: Version,
    party: Party,
    field: u8,
    revision: u32,
    text: &[u8],
    buffer: &mut [u8],
) -> Write {
    // SAFETY: each pointer and length are one slice's, which outlives the call; what is written is borrowed
    // mutably, so that nothing overlaps it; the library keeps no pointer.
    unsafe {
        library::write(
            version,
            party,
            field,
            revision,
            text.as_ptr(),
            text.len(),
            buffer.as_mut_ptr(),
            buffer.len(),
        )
    }
}

#[inline]
pub fn fresh(draft: &mut [u8]) -> u8 {
    // SAFETY: each pointer and length are one slice's, which outlives the call; what is written is borrowed
    // mutably, so that nothing overlaps it; the library keeps no pointer.
    unsafe { library::fresh(draft.as_mut_ptr(), draft.len()) }
}

#[inline]
pub fn post(draft: &mut [u8], message: &[u8]) -> Post {
    // SAFETY: each pointer and length are one slice's, which outlives the call; what is written is borrowed
    // mutably, so that nothing overlaps it; the library keeps no pointer.
    unsafe {
        library::post(
            draft.as_mut_ptr(),
            draft.len(),
            message.as_ptr(),
            message.len(),
        )
    }
}

#[inline]
pub fn origins(input: &[u8], places: &mut [u64; FIELDS.len()]) {
    // SAFETY: as for each slice, pointer and length are its own and it outlives the call; the places, which are
    // borrowed mutably, are as many as the library writes, and it keeps no pointer.
    unsafe { library::origins(input.as_ptr(), input.len(), places) }
}

#[inline]
pub fn copy(draft: &[u8], sheet: &mut [u8]) -> u8 {
    // SAFETY: each pointer and length are one slice's, which outlives the call; what is written is borrowed
    // mutably, so that nothing overlaps it; the library keeps no pointer.
    unsafe { library::copy(draft.as_ptr(), draft.len(), sheet.as_mut_ptr(), sheet.len()) }
}

#[inline]
pub fn pretest(draft: &[u8]) -> Pretest {
    // SAFETY: pointer and length are one slice's, which outlives the call; the library keeps no pointer.
    unsafe { library::pretest(draft.as_ptr(), draft.len()) }
}

#[inline]
pub fn complete(draft: &[u8], sheet: &mut [u8], terms: Terms) -> Complete {
    quick(draft, sheet, terms).complete
}

#[inline]
pub fn quick(draft: &[u8], sheet: &mut [u8], terms: Terms) -> Quick {
    // SAFETY: each pointer and length are one slice's, which outlives the call; what is written is borrowed
    // mutably, so that nothing overlaps it; the library keeps no pointer.
    unsafe {
        library::complete(
            draft.as_ptr(),
            draft.len(),
            sheet.as_mut_ptr(),
            sheet.len(),
            terms.date,
            terms.record,
        )
    }
}

#[inline]
pub fn take_up(draft: &mut [u8], sheet: &[u8], set: u16) -> TakeUp {
    // SAFETY: each pointer and length are one slice's, which outlives the call; what is written is borrowed
    // mutably, so that nothing overlaps it; the library keeps no pointer.
    unsafe {
        library::take_up(
            draft.as_mut_ptr(),
            draft.len(),
            sheet.as_ptr(),
            sheet.len(),
            set,
        )
    }
}

#[inline]
pub fn write_lines(sheet: &[u8], terms: Terms, buffer: &mut [u8]) -> Lines {
    // SAFETY: each pointer and length are one slice's, which outlives the call; what is written is borrowed
    // mutably, so that nothing overlaps it; the library keeps no pointer.
    unsafe {
        library::write_lines(
            sheet.as_ptr(),
            sheet.len(),
            terms.date,
            terms.record,
            buffer.as_mut_ptr(),
            buffer.len(),
        )
    }
}

#[inline]
pub fn read_lines(block: &[u8], sheet: &mut [u8]) -> u8 {
    // SAFETY: each pointer and length are one slice's, which outlives the call; what is written is borrowed
    // mutably, so that nothing overlaps it; the library keeps no pointer.
    unsafe { library::read_lines(block.as_ptr(), block.len(), sheet.as_mut_ptr(), sheet.len()) }
}

#[inline]
pub fn charge(amount: u64, rate: u64, least: u64, greatest: u64) -> Charge {
    // SAFETY: numbers alone, and any may be given.
    unsafe { library::charge(amount, rate, least, greatest) }
}

#[inline]
pub fn part(amount: u64, days: u32, year: u32) -> Part {
    // SAFETY: numbers alone, and any may be given.
    unsafe { library::part(amount, days, year) }
}

#[inline]
pub fn shares(amount: u64, year: u32, periods: &[u32], shares: &mut [u64; SHARE_PLACES]) -> u8 {
    // SAFETY: as for each slice, pointer and length are its own and it outlives the call; the places, which are
    // borrowed mutably, are as many as the library writes, and it keeps no pointer.
    unsafe { library::shares(amount, year, periods.as_ptr(), periods.len(), shares) }
}

#[inline]
pub fn pool(register: &[u8], amount: u64, output: &mut [u8]) -> Pool {
    // SAFETY: each pointer and length are one slice's, which outlives the call; what is written is borrowed
    // mutably, so that nothing overlaps it; the library keeps no pointer.
    unsafe {
        library::pool(
            register.as_ptr(),
            register.len(),
            amount,
            output.as_mut_ptr(),
            output.len(),
        )
    }
}

#[inline]
pub fn leave(
    balance: u64,
    priorities: &[u8],
    arrivals: &[u32],
    amounts: &[u64],
    places: &mut [u32; PAYMENT_PLACES],
) -> Leave {
    // SAFETY: as for each slice, pointer and length are its own and it outlives the call; the places, which are
    // borrowed mutably, are as many as the library writes, and it keeps no pointer.
    unsafe {
        library::leave(
            balance,
            priorities.as_ptr(),
            priorities.len(),
            arrivals.as_ptr(),
            arrivals.len(),
            amounts.as_ptr(),
            amounts.len(),
            places,
        )
    }
}

pub fn version() -> LibraryVersion {
    // SAFETY: it takes nothing, and has one name and one answer in every version of the library.
    unsafe { library::kieselbrot_version() }
}

//! Budget payment orders under 107n: field messages, the draft, the rules,
//! completion, taking up part of what it proposes, MT103 lines, the bank's charge, part of a
//! year, the register of an order, and which payments leave first.
//!
//! This crate is a thin, safe layer over a library whose code is proved: each
//! function's answer, and every buffer that it was lent, equals a definition, for
//! all inputs. The functions are total; none panics, allocates or keeps a
//! pointer. The library is made for x86-64 Linux.
//!
//! Field, status and rule numbers are those of the form and of document 01.
//! Texts are bytes of Windows-1251, 0 to 25 of them; the empty text is a blank. The
//! constants have the sizes of a sheet, a draft, a message and a register's line, and
//! say how they are laid out. Amounts are in kopecks. The order's [`Terms`], its [`Date`] and
//! a [`Record`] of three dates, say which statuses are allowed. A message has a [`Version`]
//! and is a [`Party`]'s, the client's or the adviser's. The module [`words`] says in
//! English what a rule wants and why an order can't be completed.
//!
//! # Example
//!
//! An order arrives in messages, in any order, and is completed:
//!
//! ```
//! use kieselbrot::{Class, Date, Draft, Party, Posted, Refusal, Terms};
//!
//! # fn main() -> Result<(), Refusal> {
//! let order: [(u8, &[u8]); 8] = [
//!     (14, b"004525987"),
//!     (15, b"40102810845370000004"),
//!     (17, b"03100643000000014800"),
//!     (60, b"7701569743"),
//!     (61, b"6730054024"),
//!     (102, b"770301001"),
//!     (103, b"772801001"),
//!     (104, b"18201061201010000510"),
//! ];
//! let mut draft = Draft::new();
//! for (field, text) in order {
//!     assert_eq!(draft.give(Party::ADVISER, field, 1, text)?, Posted::Newer);
//! }
//!
//! assert_eq!(draft.pretest()?, None);
//! let terms = Terms::given(Date(20240115));
//! let (sheet, completed) = draft.complete(terms)?;
//! assert!(completed.filled().eq([22, 101, 105, 106, 107, 108, 109]));
//! assert_eq!((completed.count, sheet.text(101)), (1, &b"01"[..]));
//! assert_eq!(sheet.check(terms)?, Class::A);
//!
//! // Corrected, and dated back to when status 02 was allowed.
//! for field in [60, 102] {
//!     draft.give(Party::ADVISER, field, 2, b"0")?;
//! }
//! let back = Terms::given(Date(20231015));
//! let (sheet, completed) = draft.complete(back)?;
//! assert_eq!((completed.count, sheet.text(101)), (49, &b"02"[..]));
//! let (field, rule) = (101, 10);
//! let broken = Refusal::Broken { field, rule };
//! assert_eq!(sheet.check(terms), Err(broken));
//! assert_eq!(broken.to_string(), "rule 10 is broken in field 101 (status)");
//!
//! // The client's document number; at the same revision the adviser's stands over it.
//! assert_eq!(draft.give(Party::CLIENT, 108, 1, b"17")?, Posted::Newer);
//! assert_eq!(draft.give(Party::ADVISER, 108, 1, b"18")?, Posted::Newer);
//! # Ok(())
//! # }
//! ```
//!
//! [`Draft`] and [`Sheet`] are arrays of bytes of the right size. The functions of this crate
//! take slices, which may have any: these types stand for them, and nothing is copied.

#![deny(unsafe_code)]
#![warn(missing_docs)]

mod all_broken;
mod answers;
pub mod causes;
mod dates;
mod draft;
#[allow(unsafe_code)]
mod ffi;
mod parties;
mod sheet;
mod slots;
mod stream;
pub mod windows1251;
pub mod words;

pub use all_broken::BrokenRules;
pub use answers::{Broken, Class, Completed, Entry, Leaving, Message, Paid, Part, Payment, Posted};
pub use answers::{Numbers, Quickened, Refusal};
pub use dates::{Date, Record, Terms};
pub use draft::Draft;
pub use parties::{Party, Version};
pub use sheet::Sheet;
pub use slots::slot_of;
pub use stream::{Gathered, Posting};

/// The version of this crate, which is that of the library.
pub const VERSION: &str = env!("CARGO_PKG_VERSION");

/// The numbers of the fifteen fields, in the order of their slots.
pub const FIELDS: [u8; 15] = [
    14, 15, 17, 22, 60, 61, 101, 102, 103, 104, 105, 106, 107, 108, 109,
];

/// A text's greatest length.
pub const TEXT_MAX: usize = 25;

/// A sheet's size: a slot for each field.
pub const SHEET_SIZE: usize = 390;

/// The size of a sheet's slot: the text's length in one byte, then the text, padded
/// with zero bytes to 25. Slot i stands at i times this.
pub const SHEET_SLOT_SIZE: usize = 26;

/// A draft's size: a slot for each field.
pub const DRAFT_SIZE: usize = 465;

/// The size of a draft's slot: the revision (4 bytes, big-endian, 0 = never given), the
/// party that gave it (0 exactly if the revision is 0, otherwise 1 client or 2 adviser),
/// then as in a sheet. Slot i stands at i times this.
pub const DRAFT_SLOT_SIZE: usize = 31;

/// The size of what stands before the text of a message of version 1: L, how many bytes
/// follow it (2 bytes, big-endian), the version, the field, the revision (4 bytes,
/// big-endian, not 0).
pub const MESSAGE_HEAD_SIZE_1: usize = 8;

/// The size of what stands before the text of a message of version 2: as in version 1,
/// with the party after the version, 1 client or 2 adviser.
pub const MESSAGE_HEAD_SIZE_2: usize = 9;

/// The size of the longest message; a buffer of it is long enough for any.
pub const MESSAGE_MAX: usize = 34;

/// The size of the longest block of MT103 lines, that with a code of 25 digits; a buffer of
/// it is long enough for any.
pub const LINES_BLOCK_MAX: usize = 137;

/// The earliest date of an order.
pub const ORDER_DATE_MIN: Date = Date(20230925);

/// The greatest amount, and the greatest limit of a charge, in kopecks.
pub const KOPECKS_MAX: u64 = 1_000_000_000_000;

/// The greatest rate, in hundredths of a percent: the whole amount.
pub const RATE_MAX: u64 = 10_000;

/// How many places for shares there are: the greatest number of periods.
pub const SHARE_PLACES: usize = 12;

/// The size of a register's line: the INN, 12 digits, then the kopecks (8 bytes,
/// big-endian). Line i stands at i times this.
pub const LINE_SIZE: usize = 20;

/// The greatest number of a register's lines.
pub const LINES_MAX: usize = 500;

/// The least size of the output for pooled lines: as many places as a register can have
/// lines.
pub const POOL_SIZE: usize = 10_000;

/// The greatest amount of an order with a register, in kopecks.
pub const ORDER_MAX: u64 = 1_000_000_000_000_000;

/// How many places for arrival numbers there are: the greatest number of payments.
pub const PAYMENT_PLACES: usize = 64;

/// The greatest balance, in kopecks.
pub const BALANCE_MAX: u64 = 1_000_000_000_000_000;

const _: () = assert!(SHEET_SIZE == FIELDS.len() * SHEET_SLOT_SIZE);
const _: () = assert!(DRAFT_SIZE == FIELDS.len() * DRAFT_SLOT_SIZE);
const _: () = assert!(MESSAGE_HEAD_SIZE_2 == MESSAGE_HEAD_SIZE_1 + size_of::<Party>());
const _: () = assert!(MESSAGE_MAX == MESSAGE_HEAD_SIZE_2 + TEXT_MAX);
const _: () = assert!(POOL_SIZE == LINES_MAX * LINE_SIZE);

/// Checks the sheet of an order with this date against the rules and tells its class.
///
/// Rule 10 lists the statuses that the date allows by the record: 02 up to its last date,
/// 32 and 33 from their first, the other twenty at every date.
///
/// # Errors
///
/// In this order: [`Refusal::Malformed`], [`Refusal::Undated`], [`Refusal::Broken`] with
/// the first broken rule.
///
/// # Examples
///
/// A blank sheet breaks rule 1, whatever the date; dates are tested before:
///
/// ```
/// use kieselbrot::{check, Date, Refusal, Sheet, Terms};
///
/// let check_at = |date| check(&Sheet::new(), Terms::given(Date(date)));
/// let (field, rule) = (14, 1);
/// assert_eq!(check_at(20230925), Err(Refusal::Broken { field, rule }));
/// // A day too early, and a day that is none.
/// assert_eq!(check_at(20230924), Err(Refusal::Undated));
/// assert_eq!(check_at(20231131), Err(Refusal::Undated));
/// ```
#[inline]
pub fn check(sheet: &[u8], terms: Terms) -> Result<Class, Refusal> {
    ffi::check(sheet, terms).into()
}

/// Tells all rules that the sheet of an order with this date breaks, where [`check`] names
/// the first of them.
///
/// The set is empty exactly if [`check`] accepts the sheet; else the first of it in the
/// order of testing, in which 22 stands ahead of 21, is the rule that [`check`] names. A
/// rule is judged by itself, whatever the others say of the texts that it reads. For an
/// ordinary payment only rules 1 to 4 are.
///
/// # Errors
///
/// In this order: [`Refusal::Malformed`], [`Refusal::Undated`].
///
/// # Examples
///
/// A blank sheet is no budget payment; 14 and 17 want digits, and 15 may be blank:
///
/// ```
/// use kieselbrot::{broken_rules, Date, Sheet, Terms};
///
/// let rules = broken_rules(&Sheet::new(), Terms::given(Date(20240101))).unwrap();
/// assert_eq!(rules.bits(), 0b1010);
/// assert!(rules.iter().eq([1, 3]));
/// ```
#[inline]
pub fn broken_rules(sheet: &[u8], terms: Terms) -> Result<BrokenRules, Refusal> {
    ffi::broken_rules(sheet, terms).into()
}

/// Tells an entry of a field's list in completion: what a blank field is filled with, by its
/// place from 0, or `None` where the list has none.
///
/// The list of 101 is the statuses that the date allows, as in [`check`], in ascending order;
/// that of 106 "0", "00" and the ten pairs of letters in rule 15's order; those of 108 and 109
/// are "0" and "00"; those of 22, 60, 102, 104, 105 and 107 "0". The other fields have none.
///
/// # Errors
///
/// In this order: [`Refusal::Undated`], [`Refusal::UnknownField`].
///
/// # Examples
///
/// ```
/// use kieselbrot::{entry, Date, Refusal, Terms};
///
/// let text = |field, place| {
///     let entry = entry(field, place, Terms::given(Date(20240101)))?;
///     Ok(entry.map(|entry| entry.to_vec()))
/// };
/// assert_eq!(text(101, 1), Ok(Some(b"03".to_vec())));
/// assert_eq!(text(108, 1), Ok(Some(b"00".to_vec())));
/// assert_eq!((text(108, 2), text(61, 0)), (Ok(None), Ok(None)));
/// assert_eq!(text(16, 0), Err(Refusal::UnknownField));
/// ```
#[inline]
pub fn entry(field: u8, place: usize, terms: Terms) -> Result<Option<Entry>, Refusal> {
    ffi::entry(field, place, terms).into()
}

/// Reads a message of version 1 or 2. Its text is a part of the bytes that were lent.
/// Version 1 counts as the adviser's.
///
/// # Errors
///
/// In this order: [`Refusal::Length`], [`Refusal::UnknownVersion`], [`Refusal::Length`] for a
/// length that its version does not allow, [`Refusal::UnknownParty`],
/// [`Refusal::UnknownField`], [`Refusal::RevisionZero`].
#[inline]
pub fn read(message: &[u8]) -> Result<Message<'_>, Refusal> {
    ffi::read(message).message(message)
}

/// Writes a message at the start of a buffer and tells its size; the rest of the
/// buffer stays as it is. Version 1 is the adviser's alone.
///
/// # Errors
///
/// In this order: [`Refusal::Length`], [`Refusal::UnknownVersion`], [`Refusal::UnknownParty`],
/// [`Refusal::UnknownField`], [`Refusal::RevisionZero`], [`Refusal::Output`].
///
/// # Examples
///
/// ```
/// use kieselbrot::{read, write, Message, Party, Refusal, Version, MESSAGE_MAX};
///
/// # fn main() -> Result<(), Refusal> {
/// let (field, revision, text) = (108, 1, &b"17"[..]);
/// let (version, party) = (Version::TWO, Party::CLIENT);
/// let mut buffer = [0; MESSAGE_MAX];
/// let length = write(version, party, field, revision, text, &mut buffer)?;
/// let message = Message { version, party, field, revision, text };
/// assert_eq!(read(&buffer[..length]), Ok(message));
///
/// let first = write(Version::ONE, party, field, revision, text, &mut buffer);
/// assert_eq!(first, Err(Refusal::UnknownParty));
/// # Ok(())
/// # }
/// ```
#[inline]
pub fn write(
    version: Version,
    party: Party,
    field: u8,
    revision: u32,
    text: &[u8],
    buffer: &mut [u8],
) -> Result<usize, Refusal> {
    ffi::write(version, party, field, revision, text, buffer).size(version, text.len())
}

/// Makes a draft fresh, whatever it held: all zero.
///
/// # Errors
///
/// [`Refusal::Malformed`] if its size is not [`DRAFT_SIZE`].
#[inline]
pub fn fresh(draft: &mut [u8]) -> Result<(), Refusal> {
    answers::number(ffi::fresh(draft))
}

/// Posts a message to a draft: a higher revision of its field is stored, with its party;
/// the same revision, party and text again, or a lower revision, changes nothing. At equal
/// revisions the adviser's stands over the client's, whichever came first. An empty text
/// with a higher revision blanks the field.
///
/// # Errors
///
/// In this order: [`Refusal::Malformed`] for the draft, the refusals of [`read`],
/// [`Refusal::Clash`].
#[inline]
pub fn post(draft: &mut [u8], message: &[u8]) -> Result<Posted, Refusal> {
    ffi::post(draft, message).into()
}

/// Tells of an input of messages, end to end, which message each slot holds after all of
/// them were posted to a fresh draft: for each slot its number, from 1, or 0 if none names
/// the slot's field.
///
/// The input is cut as the program `budgetorder` does it: each message has 2 + L bytes, or
/// what is left if that is less, and after one that is refused with [`Refusal::Length`]
/// nothing is read. Messages that are refused, or that change nothing, are counted, too.
///
/// # Examples
///
/// ```
/// use kieselbrot::{origins, write, Party, Version, MESSAGE_MAX};
///
/// let mut input = Vec::new();
/// for revision in [1, 3, 2, 3] {
///     let mut message = [0; MESSAGE_MAX];
///     let (version, party) = (Version::ONE, Party::ADVISER);
///     let length = write(version, party, 108, revision, b"17", &mut message).unwrap();
///     input.extend_from_slice(&message[..length]);
/// }
/// // Field 108 has slot 13.
/// assert_eq!(origins(&input), [0, 0, 0, 0, 0, 0, 0, 0, 0, 0, 0, 0, 0, 2, 0]);
/// ```
#[inline]
#[must_use]
pub fn origins(input: &[u8]) -> [u64; FIELDS.len()] {
    let mut places = [0; FIELDS.len()];
    ffi::origins(input, &mut places);
    places
}

/// Copies a draft's texts to a sheet, whatever that held, and drops the
/// revisions and parties.
///
/// # Errors
///
/// In this order: [`Refusal::Malformed`] for the draft, [`Refusal::Output`] for
/// the sheet's size.
#[inline]
pub fn copy(draft: &[u8], sheet: &mut [u8]) -> Result<(), Refusal> {
    answers::number(ffi::copy(draft, sheet))
}

/// Tests a draft ahead of completion: names, with its field, the first of rules 5 to
/// 9, 11 to 14, 16, 22 and 28, in the order of testing, that all fillings break, or
/// none.
///
/// Where it names a rule, completing the draft into a sheet of the right size is
/// refused with [`Refusal::NoFilling`] and the count of all fillings, at every date and
/// record that [`Refusal::Undated`] does not refuse. It names none exactly when every
/// filling keeps all twelve rules.
///
/// # Errors
///
/// As [`complete`] does, in this order: [`Refusal::Malformed`] for the draft,
/// [`Refusal::Broken`] for rules 1 to 3, [`Refusal::Ordinary`].
#[inline]
pub fn pretest(draft: &[u8]) -> Result<Option<Broken>, Refusal> {
    ffi::pretest(draft).into()
}

/// Completes the draft of an order with this date: writes the first filling that keeps all
/// rules to the sheet, whatever that held.
///
/// A blank 101 is filled with the statuses that the date allows, as in [`check`], in
/// ascending order. They are 20 to 23, so that there are at most 960 to 1,104 fillings.
///
/// # Errors
///
/// In this order: [`Refusal::Malformed`] for the draft, [`Refusal::Output`] for
/// the sheet's size, [`Refusal::Undated`], [`Refusal::Broken`] for rules 1 to 3,
/// [`Refusal::Ordinary`], [`Refusal::NoFilling`].
#[inline]
pub fn complete(draft: &[u8], sheet: &mut [u8], terms: Terms) -> Result<Completed, Refusal> {
    ffi::complete(draft, sheet, terms).into()
}

/// Completes a draft as [`complete`] does, with its sheet, count, set and refusal, but skips
/// all fillings of a status if one of rules 5, 7 to 14, 16, 19 to 24, 27, 28 and 30, which
/// read neither 106, 108 nor 109, fails for it. The count has them.
///
/// Also tells how many statuses were skipped: exactly those for which such a rule fails,
/// with a sheet of those up to the sheet's, with [`Refusal::NoFilling`] of all that the
/// date allows. A given 101 is the only one.
///
/// # Examples
///
/// A payer without INN and KPP, then one with "0" for a KBK:
///
/// ```
/// use kieselbrot::{quick, Date, Draft, Party, Refusal, Sheet, Terms};
///
/// # fn main() -> Result<(), Refusal> {
/// let order: [(u8, &[u8]); 8] = [
///     (14, b"004525987"),
///     (15, b"40102810845370000004"),
///     (17, b"03100643000000014800"),
///     (60, b"0"),
///     (61, b"6730054024"),
///     (102, b"0"),
///     (103, b"772801001"),
///     (104, b"18201061201010000510"),
/// ];
/// let mut draft = Draft::new();
/// for (field, text) in order {
///     draft.give(Party::ADVISER, field, 1, text)?;
/// }
///
/// let mut sheet = Sheet::new();
/// let terms = Terms::given(Date(20240115));
/// let quickened = quick(&draft, &mut sheet, terms);
/// // Rule 23 fails for status 01. Status 03, which rule 25 refuses, was tried.
/// assert_eq!((quickened.completed?.count, quickened.skipped), (97, 1));
///
/// draft.give(Party::ADVISER, 104, 2, b"0")?;
/// let quickened = quick(&draft, &mut sheet, terms);
/// // Rule 28 fails for all.
/// let count = 1_056;
/// assert_eq!(quickened.completed, Err(Refusal::NoFilling { count }));
/// assert_eq!(quickened.skipped, 22);
/// # Ok(())
/// # }
/// ```
#[inline]
pub fn quick(draft: &[u8], sheet: &mut [u8], terms: Terms) -> Quickened {
    ffi::quick(draft, sheet, terms).into()
}

/// Takes up part of a proposal: for each slot of the set, posts the text that the sheet has
/// there to the draft as the adviser's, with the revision after its slot's, whichever party
/// gave that. Bit i of the set is for slot i, as in [`Completed::set`].
///
/// If completing the draft at a date and record gave this sheet, and the set is a part of the
/// returned one, completing it again at the same date and record gives the very same sheet, a
/// count no larger, and the returned set without the slots taken up.
///
/// The sheet need not be one that completion wrote; its texts outside the set are not taken.
///
/// # Errors
///
/// In this order: [`Refusal::Malformed`] for a malformed draft, or a malformed sheet of the
/// right size, [`Refusal::Output`] for the sheet's size, [`Refusal::NotTakenUp`] with the field of the
/// lowest slot of the set that can't take up its value: the bit is no slot's (15), its field
/// has no list of fillings (14, 15, 17, 61, 103), it is not blank in the draft, the sheet is
/// blank there, or its revision is [`u32::MAX`]. None of the values is then taken up.
///
/// # Examples
///
/// Of what is proposed to a payer without INN and KPP, the status is taken up:
///
/// ```
/// use kieselbrot::{take_up, Completed, Date, Draft, Party, Refusal, Terms};
///
/// # fn main() -> Result<(), Refusal> {
/// let order: [(u8, &[u8]); 8] = [
///     (14, b"004525987"),
///     (15, b"40102810845370000004"),
///     (17, b"03100643000000014800"),
///     (60, b"0"),
///     (61, b"6730054024"),
///     (102, b"0"),
///     (103, b"772801001"),
///     (104, b"18201061201010000510"),
/// ];
/// let mut draft = Draft::new();
/// for (field, text) in order {
///     draft.give(Party::ADVISER, field, 1, text)?;
/// }
///
/// let terms = Terms::given(Date(20240115));
/// let (sheet, proposed) = draft.complete(terms)?;
/// assert_eq!((proposed.count, proposed.ones), (97, 7));
///
/// // Field 61 has slot 5 and no list of fillings, field 101 has slot 6.
/// let field = 61;
/// let refused = take_up(&mut draft, &sheet, 1 << 5 | 1 << 6);
/// assert_eq!(refused, Err(Refusal::NotTakenUp { field }));
/// take_up(&mut draft, &sheet, 1 << 6)?;
///
/// let (again, completed) = draft.complete(terms)?;
/// let (count, set, ones) = (1, proposed.set & !(1 << 6), 6);
/// assert_eq!(completed, Completed { count, set, ones });
/// assert_eq!(again, sheet);
/// # Ok(())
/// # }
/// ```
#[inline]
pub fn take_up(draft: &mut [u8], sheet: &[u8], set: u16) -> Result<(), Refusal> {
    ffi::take_up(draft, sheet, set).into()
}

/// Writes the MT103 lines of an accepted sheet of class A at the start of a buffer and tells
/// their length; the rest of the buffer stays as it is.
///
/// The lines, each ended by a line feed: `:26T:S` and field 101; `:57D://RU`, field 14, `.`
/// and field 15; `:59:/` and field 17; `INN`, field 61, `.KPP` and field 103; `:72:/UIP/` and
/// field 22. They have 113, 116, 132 or [`LINES_BLOCK_MAX`] bytes: 112 and those of field 22.
///
/// # Errors
///
/// In this order: [`Refusal::Malformed`], [`Refusal::Undated`], [`Refusal::Broken`] with the
/// first broken rule, as in [`check`]; [`Refusal::NoLines`] for class B or O;
/// [`Refusal::Output`] for a buffer shorter than the lines.
///
/// # Examples
///
/// An order is completed, its lines are written and read back:
///
/// ```
/// use kieselbrot::{read_lines, write_lines, Date, Draft, Party, Refusal, Sheet, Terms};
///
/// # fn main() -> Result<(), Refusal> {
/// let order: [(u8, &[u8]); 8] = [
///     (14, b"004525987"),
///     (15, b"40102810845370000004"),
///     (17, b"03100643000000014800"),
///     (60, b"7701569743"),
///     (61, b"6730054024"),
///     (102, b"770301001"),
///     (103, b"772801001"),
///     (104, b"18201061201010000510"),
/// ];
/// let mut draft = Draft::new();
/// for (field, text) in order {
///     draft.give(Party::ADVISER, field, 1, text)?;
/// }
/// let terms = Terms::given(Date(20240115));
/// let (sheet, _) = draft.complete(terms)?;
///
/// let mut buffer = [0; kieselbrot::LINES_BLOCK_MAX];
/// let length = write_lines(&sheet, terms, &mut buffer)?;
/// let lines = b":26T:S01
/// :57D://RU004525987.40102810845370000004
/// :59:/03100643000000014800
/// INN6730054024.KPP772801001
/// :72:/UIP/0
/// ";
/// assert_eq!(buffer[..length], lines[..]);
/// let short = write_lines(&sheet, terms, &mut buffer[..length - 1]);
/// assert_eq!(short, Err(Refusal::Output));
///
/// // Field 60 is not in the lines.
/// let mut back = Sheet::new();
/// read_lines(lines, &mut back)?;
/// assert_eq!(back.text(14), sheet.text(14));
/// assert_eq!(back.text(60), b"");
/// assert_eq!(read_lines(&lines[1..], &mut back), Err(Refusal::NoLines));
/// # Ok(())
/// # }
/// ```
#[inline]
pub fn write_lines(sheet: &[u8], terms: Terms, buffer: &mut [u8]) -> Result<usize, Refusal> {
    ffi::write_lines(sheet, terms, buffer).into()
}

/// Reads MT103 lines as [`write_lines`] writes them: fills a sheet, whatever that held, with
/// their seven texts, all others blank. It is not meant to pass [`check`].
///
/// It takes exactly the blocks of these lines whose texts keep rules 1, 2, 3, 5, 7, 9, 10 and
/// 12 and make class A. It takes no date: rule 10 lists all 23 statuses. What was written
/// reads back as the same seven texts, and each block that reads is what the lines of its
/// texts are.
///
/// # Errors
///
/// In this order: [`Refusal::Output`] for the sheet's size, [`Refusal::NoLines`] for any other
/// block.
#[inline]
pub fn read_lines(block: &[u8], sheet: &mut [u8]) -> Result<(), Refusal> {
    answers::number(ffi::read_lines(block, sheet))
}

/// The bank's charge for an amount, in kopecks: amount times rate over 10,000, halves
/// upward to the whole kopeck, raised to the least, then lowered to the greatest.
///
/// The amount is 1 to [`KOPECKS_MAX`], the rate 0 to [`RATE_MAX`] hundredths of a
/// percent; the least and the greatest charge are at most [`KOPECKS_MAX`], the least
/// not above the greatest.
///
/// # Errors
///
/// [`Refusal::Tariff`] if one of these is otherwise.
///
/// # Examples
///
/// 0.5 percent, at least 30 and at most 2,000 roubles:
///
/// ```
/// use kieselbrot::{charge, Refusal};
///
/// let (rate, least, greatest) = (50, 30_00, 2_000_00);
/// assert_eq!(charge(10_000_00, rate, least, greatest), Ok(50_00));
/// assert_eq!(charge(1_000_00, rate, least, greatest), Ok(30_00));
/// assert_eq!(charge(1_000_000_00, rate, least, greatest), Ok(2_000_00));
/// // 50.005 roubles: half a kopeck goes upward.
/// assert_eq!(charge(10_001_00, rate, least, greatest), Ok(50_01));
/// assert_eq!(charge(0, rate, least, greatest), Err(Refusal::Tariff));
/// ```
#[inline]
pub fn charge(amount: u64, rate: u64, least: u64, greatest: u64) -> Result<u64, Refusal> {
    ffi::charge(amount, rate, least, greatest).into()
}

/// The part of a year's amount for so many days: amount times days over the year's
/// length, in whole kopecks, with the remainder.
///
/// The amount is 1 to [`KOPECKS_MAX`], the year 365 or 366 days long, the days 1 to
/// that length.
///
/// # Errors
///
/// [`Refusal::YearPart`] if one of these is otherwise.
///
/// # Examples
///
/// ```
/// use kieselbrot::{part, Part, Refusal};
///
/// let (kopecks, remainder) = (84, 340);
/// assert_eq!(part(1_000, 31, 365), Ok(Part { kopecks, remainder }));
/// assert_eq!(kopecks * 365 + u64::from(remainder), 1_000 * 31);
/// assert_eq!(part(1_000, 366, 365), Err(Refusal::YearPart));
/// ```
#[inline]
pub fn part(amount: u64, days: u32, year: u32) -> Result<Part, Refusal> {
    ffi::part(amount, days, year).into()
}

/// A year's amount shared among periods, given by their days.
///
/// The first k shares sum to the whole kopecks of the part for the days of the first k
/// periods, and all of them to the amount; places past the last period are 0. The
/// amount is 1 to [`KOPECKS_MAX`], the year 365 or 366 days long; there are 1 to
/// [`SHARE_PLACES`] periods, of at least one day each, that sum to the year.
///
/// # Errors
///
/// [`Refusal::YearPart`] if one of these is otherwise.
///
/// # Examples
///
/// Ten months and two, then the twelve months:
///
/// ```
/// use kieselbrot::{shares, Refusal};
///
/// # fn main() -> Result<(), Refusal> {
/// let [first, second, rest @ ..] = shares(1_000, 365, &[306, 59])?;
/// assert_eq!((first, second, rest), (838, 162, [0; 10]));
///
/// let months = [31, 28, 31, 30, 31, 30, 31, 31, 30, 31, 30, 31];
/// let by_months = shares(1_000, 365, &months)?;
/// assert_eq!(by_months, [84, 77, 85, 82, 85, 82, 85, 85, 82, 85, 83, 85]);
/// assert_eq!(by_months.iter().sum::<u64>(), 1_000);
/// assert_eq!(shares(1_000, 366, &months), Err(Refusal::YearPart));
/// # Ok(())
/// # }
/// ```
#[inline]
pub fn shares(amount: u64, year: u32, periods: &[u32]) -> Result<[u64; SHARE_PLACES], Refusal> {
    let mut shares = [0; SHARE_PLACES];
    shares_into(amount, year, periods, &mut shares)?;
    Ok(shares)
}

/// As [`shares`](shares()), into places that are lent, whatever they held.
///
/// # Errors
///
/// [`Refusal::YearPart`], as there; the places are then as they were.
///
/// # Examples
///
/// ```
/// use kieselbrot::{shares_into, Refusal};
///
/// let mut places = [9; kieselbrot::SHARE_PLACES];
/// let answer = shares_into(1_000, 365, &[365, 0], &mut places);
/// assert_eq!((answer, places), (Err(Refusal::YearPart), [9; 12]));
/// let answer = shares_into(1_000, 365, &[365], &mut places);
/// assert_eq!((answer, places[0], places[1]), (Ok(()), 1_000, 0));
/// ```
#[inline]
pub fn shares_into(
    amount: u64,
    year: u32,
    periods: &[u32],
    places: &mut [u64; SHARE_PLACES],
) -> Result<(), Refusal> {
    answers::number(ffi::shares(amount, year, periods, places))
}

/// Pools the lines of an order's register: those of one INN become one line with their
/// sum, in the order of first appearance, at the start of the output. Tells how many
/// pooled lines there are; the rest of the output stays as it is.
///
/// The register has 1 to [`LINES_MAX`] lines, each with an INN of 12 digits, whose check
/// digits are right, and 1 to [`KOPECKS_MAX`] kopecks; the order's amount is 1 to
/// [`ORDER_MAX`] and the register's total. The output has at least [`POOL_SIZE`] bytes,
/// however few lines there are.
///
/// # Errors
///
/// In this order: [`Refusal::Output`], [`Refusal::Register`], [`Refusal::Discrepancy`].
///
/// # Examples
///
/// ```
/// use kieselbrot::{pool, Refusal, LINE_SIZE, POOL_SIZE};
///
/// # fn main() -> Result<(), Refusal> {
/// let line = |inn: &[u8; 12], kopecks: u64| [&inn[..], &kopecks.to_be_bytes()].concat();
/// let (one, other) = (b"781023456779", b"123456789047");
/// let register = [line(one, 5), line(other, 7), line(one, 1)].concat();
/// let mut output = [0; POOL_SIZE];
///
/// // A kopeck less than the order.
/// let difference = -1;
/// let answer = pool(&register, 14, &mut output);
/// assert_eq!(answer, Err(Refusal::Discrepancy { difference }));
///
/// assert_eq!(pool(&register, 13, &mut output)?, 2);
/// let pooled = [line(one, 6), line(other, 7)].concat();
/// assert_eq!(output[..2 * LINE_SIZE], pooled);
/// # Ok(())
/// # }
/// ```
#[inline]
pub fn pool(register: &[u8], amount: u64, output: &mut [u8]) -> Result<usize, Refusal> {
    ffi::pool(register, amount, output).into()
}

/// Which payments leave an account first: by priority and, within one, by arrival, lower
/// numbers first, until the first that exceeds what is left; it and all after it wait.
///
/// The balance is 0 to [`BALANCE_MAX`]; there are 0 to [`PAYMENT_PLACES`] payments, with
/// priority 1 to 5, any arrival number, no two equal, and 1 to [`KOPECKS_MAX`] kopecks.
/// How many payments there are tells an arrival number of 0 from a place past the last.
///
/// # Errors
///
/// In this order: [`Refusal::Queue`], [`Refusal::EqualArrivals`].
///
/// # Examples
///
/// ```
/// use kieselbrot::{leave, Paid, Payment, Refusal};
///
/// # fn main() -> Result<(), Refusal> {
/// let payment = |priority, arrival, amount| Payment { priority, arrival, amount };
/// let payments = [payment(3, 7, 5), payment(1, 9, 5), payment(1, 2, 5)];
/// let leaving = leave(10, &payments)?;
/// assert_eq!(leaving.places[..4], [2, 9, 7, 0]);
/// let (count, sum, left) = (2, 10, 0);
/// assert_eq!(leaving.paid, Paid { count, sum, left });
///
/// let equal = [payment(3, 7, 5), payment(1, 7, 5)];
/// assert_eq!(leave(10, &equal), Err(Refusal::EqualArrivals));
/// # Ok(())
/// # }
/// ```
#[inline]
pub fn leave(balance: u64, payments: &[Payment]) -> Result<Leaving, Refusal> {
    // One more than there may be, for the library to refuse them.
    const MOST: usize = PAYMENT_PLACES + 1;
    let count = payments.len().min(MOST);
    let (mut priorities, mut arrivals, mut amounts) = ([0; MOST], [0; MOST], [0; MOST]);
    for (place, payment) in payments[..count].iter().enumerate() {
        priorities[place] = payment.priority;
        arrivals[place] = payment.arrival;
        amounts[place] = payment.amount;
    }
    let mut places = [0; PAYMENT_PLACES];
    let paid = leave_into(
        balance,
        &priorities[..count],
        &arrivals[..count],
        &amounts[..count],
        &mut places,
    )?;
    Ok(Leaving { places, paid })
}

/// As [`leave`](leave()), of payments in three lists, into places that are lent, whatever
/// they held: payment i has priority, arrival number and amount i.
///
/// # Errors
///
/// As there, and [`Refusal::Queue`] if the lists are of different lengths; the places are
/// then as they were.
///
/// # Examples
///
/// ```
/// use kieselbrot::{leave_into, Paid, Refusal, PAYMENT_PLACES};
///
/// let mut places = [8; PAYMENT_PLACES];
/// let answer = leave_into(10, &[3, 1, 1], &[7, 9], &[5, 5, 5], &mut places);
/// assert_eq!((answer, places), (Err(Refusal::Queue), [8; PAYMENT_PLACES]));
/// let answer = leave_into(10, &[3, 1, 1], &[7, 9, 2], &[5, 5, 5], &mut places);
/// assert_eq!(answer.map(|paid| paid.count), Ok(2));
/// assert_eq!(places[..4], [2, 9, 7, 0]);
/// ```
#[inline]
pub fn leave_into(
    balance: u64,
    priorities: &[u8],
    arrivals: &[u32],
    amounts: &[u64],
    places: &mut [u32; PAYMENT_PLACES],
) -> Result<Paid, Refusal> {
    ffi::leave(balance, priorities, arrivals, amounts, places).into()
}

/// The version of the library that is linked: major, minor and patch. The names that this
/// crate links have its own major version in them, so that the two are of one major version.
///
/// # Examples
///
/// ```
/// let [major, minor, patch] = kieselbrot::version();
/// assert_eq!(format!("{major}.{minor}.{patch}"), kieselbrot::VERSION);
/// ```
#[inline]
#[must_use]
pub fn version() -> [u32; 3] {
    let ffi::LibraryVersion {
        major,
        minor,
        patch,
    } = ffi::version();
    [major, minor, patch]
}

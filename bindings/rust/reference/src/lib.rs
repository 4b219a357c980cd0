//! Budget payment orders under 107n: field messages, the draft, the rules,
//! completion, the test ahead of it and a quick search, taking up part of a
//! proposal, the message writer, the report of one program, the SWIFT lines, the
//! bank's charge, the part of a year, the register of an order and the payments that
//! leave first.
//!
//! This is a second implementation of the paper "Budget payment orders under
//! 107n: draft, check and completion" and its change requests, which shares no
//! code with the library. Doc comments quote the sentence of the paper or the request they
//! follow. Of the requests it has R-1 (pension numbers), R-2 (letters in a KPP),
//! R-3 (a test ahead of the search), R-4 (check digits of the INN), R-5 (rule
//! 22 ahead of rule 21), R-6 (SWIFT lines), R-7 (the order's date chooses the rules),
//! R-8 (the client writes into the same draft), R-9 (taking up part of a proposal, a
//! claim about completion and posting as they are), R-10 (the bank's charge), R-11
//! (part of a year), R-12 (status 15 with its register), R-13 (which payments leave
//! first) and R-14 (passing over a status whole).
//! R-9 names no function; [`take_up`] and refusal 20 are added to it and stated
//! where they stand. [`broken_rules`], [`origins`] and [`entry`], which tells an entry of a list of
//! "Completion", are asked for besides, and said where they stand.
//!
//! Every public function is total, and "Refusals change no buffer".

#![forbid(unsafe_code)]
#![warn(missing_docs)]

mod all_broken;
mod charge;
mod completion;
mod dates;
mod draft;
mod field;
mod leave;
mod message;
mod origins;
mod part;
mod party;
mod pretest;
mod program;
mod quick;
mod refusal;
mod register;
mod rules;
mod sheet;
mod swift;
mod take_up;

pub use all_broken::broken_rules;
pub use charge::charge;
pub use completion::{complete, entry, Completed};
pub use dates::{Date, Record};
pub use draft::{copy, fresh, post, Posted, DRAFT_SIZE, SLOT_SIZE};
pub use leave::{leave, Leaving, Payment};
pub use message::{read, write, Message, MESSAGE_MAX};
pub use origins::origins;
pub use part::{part, shares, Part};
pub use pretest::pretest;
pub use program::report;
pub use quick::{quick, Quick};
pub use refusal::{Broken, Refusal};
pub use register::pool;
pub use rules::{check, statuses, Class};
pub use swift::{read_lines, write_lines};
pub use take_up::take_up;

//! Sheets, drafts and messages to try the library with, laid out byte by byte from
//! document 01, dates, MT103 lines, arguments of a charge, of a part of a year and of shares,
//! registers, and payments: without code of the library or of the second implementation.
//!
//! What depends on the order's date takes [`Dates`] where its name ends in `_at`, and is
//! otherwise at those of the program.

#![forbid(unsafe_code)]
#![warn(missing_docs)]

mod charges;
mod damage;
mod dates;
mod fillings;
mod forms;
mod lines;
mod orders;
mod parties;
mod parts;
mod payments;
mod random;
mod registers;
mod streams;
mod table;
mod texts;

pub use charges::{charge, charge_in_range, Charge, KOPECKS_MAX, RATE_MAX};
pub use damage::{damaged_draft, damaged_message, damaged_sheet, size_near};
pub use dates::{day_after, day_before, fit_dates, is_day, refused_dates, Dates};
pub use dates::{ALL_STATUSES, LISTS, NO_DAYS, ORDER_DATE_MIN, STATUSES};
pub use fillings::{filled_set, fillings, fillings_at};
pub use forms::{inn_remainder, inn_weights, list, list_at, snils_remainder};
pub use forms::{BASES, CLASS_A, CLASS_B, SNILS_BOUND};
pub use lines::{damaged_block, ended_by, lines_of, of_lines, trailing};
pub use lines::{LINE_FIELDS, LINE_LENGTHS, MARKS};
pub use orders::{accepted, accepted_at, blanked, budget, budget_at, class_a, with_forms};
pub use orders::{disturb, disturb_at};
pub use orders::{Account, Basis, Code, Date, Document, Forms, Payer};
pub use parties::{advised, draft_after, draft_slot, of_both_parties, set_slot, slot_mut, Given};
pub use parties::{message_2, message_of, message_of_any, message_of_wrong_parts};
pub use parties::{ADVISER, CLIENT, PARTIES};
pub use parties::{DRAFT_SIZE, DRAFT_SLOT_SIZE, HEAD_SIZE_1, HEAD_SIZE_2};
pub use parties::{LENGTH_PLACE, PARTY_PLACE};
pub use parts::{parting, parting_in_range, sharing, sharing_in_range, sharing_of};
pub use parts::{Parting, Sharing, SHARE_PLACES, YEARS};
pub use payments::{queue, queue_of, Payment, Queue, BALANCE_MAX, PAYMENT_PLACES};
pub use random::Random;
pub use registers::{inn_of, pool_size, pooling, register_of, Inn, Line, Pooling};
pub use registers::{LINES_MAX, LINE_SIZE, ORDER_MAX, POOL_SIZE};
pub use streams::{messages, messages_at};
pub use table::{sheets, Case};
pub use texts::{message, slot_of, Draft, Sheet, Text, Texts, BLANKS, FIELDS, FILLABLE};

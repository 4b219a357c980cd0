//! The library against the second implementation of document 01.
//!
//! Both get the same inputs; answers and lent buffers must agree after every
//! call, and a refusal must leave the buffers as they were. What the inputs
//! reached is counted, and what they never reached is an error.

#![forbid(unsafe_code)]
#![warn(missing_docs)]

mod blocks;
mod broken;
mod charges;
mod comparison;
mod dates;
mod exhaustive;
mod exhaustive_messages;
mod fillings;
mod generated;
mod library;
mod lines;
mod origins;
mod parties;
mod parts;
mod planted;
mod planted_parties;
mod pools;
mod pretest;
mod proposals;
mod queues;
mod quick;
mod reached;
mod run;
mod shares;
mod streams;
mod taken;

pub use comparison::{Comparison, Difference};
pub use library::{Library, Linked, Reference};
pub use planted::{Planted, PLANTS};
pub use reached::Reached;
pub use run::{setting, Report, Run, CASES, SEED};

//! Tests of the crate against the paper.

mod boundaries;
mod examples;
#[path = "../common/layout.rs"]
mod layout;
mod properties;
mod support;
mod table;

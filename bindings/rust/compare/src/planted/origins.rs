//! The origins of an input with one thing changed.

use cases::FIELDS;
use kieselbrot::Refusal;

use super::Planted;
use crate::library::{Library, Reference};

impl Planted {
    /// Which message each slot holds, as it would be found by going through the input.
    pub(super) fn changed_origins(self, input: &[u8]) -> [u64; FIELDS.len()] {
        let mut held = [(0, 0); FIELDS.len()];
        let mut origins = [0; FIELDS.len()];
        let mut number = u64::from(self != Self::OriginsFrom0);
        let mut rest = input;
        while !rest.is_empty() {
            let size = match *rest {
                [high, low, ..] => 2 + usize::from(high) * 256 + usize::from(low),
                _ => rest.len(),
            };
            let (message, behind) = rest.split_at(size.min(rest.len()));
            match Reference.read(message) {
                Ok(read) => {
                    let slot = cases::slot_of(read.field);
                    let rank = (read.revision, read.party.0);
                    let equal = self == Self::LastOfEquals && rank == held[slot];
                    if rank > held[slot] || equal {
                        held[slot] = rank;
                        origins[slot] = number;
                    }
                    number += 1;
                }
                Err(Refusal::Length) if self != Self::BehindA2 => break,
                Err(refusal) => {
                    if refusal == Refusal::RevisionZero && self == Self::RefusedOrigin {
                        let field = message[if message[2] == 2 { 4 } else { 3 }];
                        let origin = &mut origins[cases::slot_of(field)];
                        *origin = (*origin).max(number);
                    }
                    number += u64::from(self != Self::RefusedUncounted);
                }
            }
            rest = behind;
        }
        origins
    }
}

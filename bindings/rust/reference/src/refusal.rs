//! "Answers other than success", and the broken rule one of them names.

use std::fmt;

/// A broken rule, "named with the field in brackets"; what
/// [`pretest`](crate::pretest()) "names, with its field".
#[derive(Clone, Copy, Debug, PartialEq, Eq, Hash)]
pub struct Broken {
    /// The number of the field in brackets before the rule.
    pub field: u8,
    /// The number of the rule.
    pub rule: u8,
}

/// Refusal 8.
impl From<Broken> for Refusal {
    fn from(Broken { field, rule }: Broken) -> Self {
        Self::Broken { field, rule }
    }
}

/// An answer other than success. "Number order is test order", but 12 "comes just
/// before 8", 13 "just before 4", a part of 2 is "tested after 3", and 7 comes last
/// in [`write_lines`](crate::write_lines).
#[derive(Clone, Copy, Debug, PartialEq, Eq, Hash)]
pub enum Refusal {
    /// 1: "draft or sheet malformed; for fresh, size not" 465. "A slot … has 31 bytes
    /// and a draft 465; error 1 tests for both", size and party.
    Malformed,
    /// 2: "message under 2 bytes, L not the rest, L outside 6 to" 32; "tested after
    /// 3, an L its version doesn't allow"; "writer: text over 25".
    Length,
    /// 3: "a version other than 1 or 2".
    Version,
    /// 4: "field not listed".
    UnknownField,
    /// 5: "revision 0".
    RevisionZero,
    /// 6: "equal revision, other text"; "Clash 6 needs equal party too".
    Clash,
    /// 7: "output: a sheet not of 390, a message buffer too short"; for SWIFT lines
    /// "buffer too short"; "an output of fewer than 500 places"; a proposed sheet not
    /// of 390.
    Output,
    /// 8: "a broken rule; in completion only 1 to 3".
    Broken {
        /// The number of the field in brackets before the rule.
        field: u8,
        /// The number of the first broken rule, in the order of testing.
        rule: u8,
    },
    /// 9: "completion of class O".
    Ordinary,
    /// 10: "no filling keeps the rules".
    NoFilling {
        /// The "count of all fillings".
        count: u32,
    },
    /// 11: "for class B or O when writing and for any other block when reading".
    NoLines,
    /// 12: "an order date or record entry that is no Gregorian date of the years
    /// 1900 to 2099, or an order date before 20230925"; "it comes just before 8".
    Undated,
    /// 13: "an unknown party, or the client when writing version 1, just before 4".
    Party,
    /// 14: "an argument out of range or a least above the greatest".
    Tariff,
    /// 15: "a year length other than 365 or 366, days outside 1 to that length, 0
    /// or over 12 periods, periods not summing to the year, or an amount out of
    /// range".
    YearPart,
    /// 16: "a line whose INN or amount isn't as said, a register not of 1 to 500
    /// whole lines, or an order amount outside 1 to 10^15".
    Register,
    /// 17: "where the order's amount differs".
    Discrepancy {
        /// "The signed difference register minus order", in kopecks.
        difference: i64,
    },
    /// 18: "a value out of range or over 64 payments".
    Queue,
    /// 19: "two equal arrival numbers, after 18".
    EqualArrivals,
    /// 20: a slot of the set that can't be taken up. Its bit is no slot's, its field
    /// has no list, it is not blank in the draft, the proposed sheet is blank there,
    /// or its revision is the greatest.
    NotTakenUp {
        /// The number of the field in the lowest such slot; 0 for bit 15.
        field: u8,
    },
}

impl Refusal {
    /// The refusal's number in the paper's table or in a request.
    #[must_use]
    pub const fn number(&self) -> u8 {
        match self {
            Self::Malformed => 1,
            Self::Length => 2,
            Self::Version => 3,
            Self::UnknownField => 4,
            Self::RevisionZero => 5,
            Self::Clash => 6,
            Self::Output => 7,
            Self::Broken { .. } => 8,
            Self::Ordinary => 9,
            Self::NoFilling { .. } => 10,
            Self::NoLines => 11,
            Self::Undated => 12,
            Self::Party => 13,
            Self::Tariff => 14,
            Self::YearPart => 15,
            Self::Register => 16,
            Self::Discrepancy { .. } => 17,
            Self::Queue => 18,
            Self::EqualArrivals => 19,
            Self::NotTakenUp { .. } => 20,
        }
    }
}

/// "The number and what it returns", "parted by one space".
impl fmt::Display for Refusal {
    fn fmt(&self, f: &mut fmt::Formatter<'_>) -> fmt::Result {
        write!(f, "{}", self.number())?;
        match self {
            Self::Broken { field, rule } => write!(f, " {field} {rule}"),
            Self::NoFilling { count } => write!(f, " {count}"),
            Self::Discrepancy { difference } => write!(f, " {difference}"),
            Self::NotTakenUp { field } => write!(f, " {field}"),
            _ => Ok(()),
        }
    }
}

impl std::error::Error for Refusal {}

//! A set of rules, as a number of 64 bits.

/// The rules that a sheet breaks.
#[derive(Clone, Copy, Debug, Default, PartialEq, Eq, Hash)]
pub struct BrokenRules(u64);

impl BrokenRules {
    /// The number of the last rule.
    pub const LAST: u8 = 35;

    /// The set with bit n for rule n, if it has no other bits than 1 to 35.
    #[must_use]
    pub const fn new(bits: u64) -> Option<Self> {
        if bits & 1 == 0 && bits < 2 << Self::LAST {
            Some(Self(bits))
        } else {
            None
        }
    }

    /// The number: bit n is set exactly if the set has rule n.
    #[must_use]
    pub const fn bits(self) -> u64 {
        self.0
    }

    /// Whether the sheet breaks no rule.
    #[must_use]
    pub const fn is_empty(self) -> bool {
        self.0 == 0
    }

    /// How many rules it breaks.
    #[must_use]
    pub const fn len(self) -> u32 {
        self.0.count_ones()
    }

    /// Whether it breaks the rule with this number.
    #[must_use]
    pub const fn contains(self, rule: u8) -> bool {
        rule <= Self::LAST && self.0 >> rule & 1 == 1
    }

    /// The numbers of the rules, ascending; the order of testing is another, 22 ahead of 21.
    pub fn iter(self) -> impl Iterator<Item = u8> {
        (1..=Self::LAST).filter(move |&rule| self.contains(rule))
    }
}

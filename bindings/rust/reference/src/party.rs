//! "The client writes into the same draft."

/// Who wrote a message: "1 client or 2 adviser".
///
/// The order is that of R-8: "at equal revisions the adviser's stands over the
/// client's".
#[derive(Clone, Copy, Debug, PartialEq, Eq, PartialOrd, Ord)]
pub(crate) enum Party {
    Client = 1,
    Adviser = 2,
}

impl Party {
    /// The party with this number; `None` for "an unknown party".
    pub(crate) const fn from_number(number: u8) -> Option<Self> {
        Some(match number {
            1 => Self::Client,
            2 => Self::Adviser,
            _ => return None,
        })
    }

    /// The party byte.
    pub(crate) const fn number(self) -> u8 {
        self as u8
    }
}

#[cfg(test)]
mod tests {
    use super::*;

    #[test]
    fn numbers_and_parties_agree() {
        for party in [Party::Client, Party::Adviser] {
            assert_eq!(Party::from_number(party.number()), Some(party));
        }
        let known = (0..=u8::MAX).filter(|&n| Party::from_number(n).is_some());
        assert_eq!(known.count(), 2);
        assert!(Party::Client < Party::Adviser);
    }
}

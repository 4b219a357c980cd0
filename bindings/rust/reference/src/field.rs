//! "Fifteen fields, in slots 0 to 14".

/// How many fields, and so slots, there are.
pub(crate) const FIELDS: usize = 15;

/// A field. The discriminant is its slot.
///
/// An enum rather than a number: "field, status and rule numbers never stand
/// in for one another".
#[derive(Clone, Copy, Debug, PartialEq, Eq)]
pub(crate) enum Field {
    Bik,
    BankAccount,
    RecipientAccount,
    Code,
    PayerInn,
    RecipientInn,
    Status,
    PayerKpp,
    RecipientKpp,
    Kbk,
    Oktmo,
    Basis,
    CustomsOffice,
    Document,
    Date,
}

impl Field {
    /// All fields in slot order.
    pub(crate) const ALL: [Self; FIELDS] = [
        Self::Bik,
        Self::BankAccount,
        Self::RecipientAccount,
        Self::Code,
        Self::PayerInn,
        Self::RecipientInn,
        Self::Status,
        Self::PayerKpp,
        Self::RecipientKpp,
        Self::Kbk,
        Self::Oktmo,
        Self::Basis,
        Self::CustomsOffice,
        Self::Document,
        Self::Date,
    ];

    /// The field with this number, if it is listed.
    pub(crate) const fn from_number(number: u8) -> Option<Self> {
        Some(match number {
            14 => Self::Bik,
            15 => Self::BankAccount,
            17 => Self::RecipientAccount,
            22 => Self::Code,
            60 => Self::PayerInn,
            61 => Self::RecipientInn,
            101 => Self::Status,
            102 => Self::PayerKpp,
            103 => Self::RecipientKpp,
            104 => Self::Kbk,
            105 => Self::Oktmo,
            106 => Self::Basis,
            107 => Self::CustomsOffice,
            108 => Self::Document,
            109 => Self::Date,
            _ => return None,
        })
    }

    /// The field's number on the form.
    pub(crate) const fn number(self) -> u8 {
        match self {
            Self::Bik => 14,
            Self::BankAccount => 15,
            Self::RecipientAccount => 17,
            Self::Code => 22,
            Self::PayerInn => 60,
            Self::RecipientInn => 61,
            Self::Status => 101,
            Self::PayerKpp => 102,
            Self::RecipientKpp => 103,
            Self::Kbk => 104,
            Self::Oktmo => 105,
            Self::Basis => 106,
            Self::CustomsOffice => 107,
            Self::Document => 108,
            Self::Date => 109,
        }
    }

    /// The field's slot, 0 to 14.
    pub(crate) const fn slot(self) -> usize {
        self as usize
    }
}

#[cfg(test)]
mod tests {
    use super::*;

    #[test]
    fn numbers_slots_and_the_list_agree() {
        for (slot, field) in Field::ALL.into_iter().enumerate() {
            assert_eq!(field.slot(), slot);
            assert_eq!(Field::from_number(field.number()), Some(field));
        }
        let listed = (0..=u8::MAX).filter(|&n| Field::from_number(n).is_some());
        assert_eq!(listed.count(), FIELDS);
    }
}

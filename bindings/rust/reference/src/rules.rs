//! The rules. "The rules are judged knowing sheets only, never drafts."

use crate::dates::{is_gregorian, Date, Dates, Record};
use crate::field::Field;
use crate::refusal::{Broken, Refusal};
use crate::sheet::Sheet;

/// "With 1 to 3 kept, a sheet has a class."
#[derive(Clone, Copy, Debug, PartialEq, Eq, Hash)]
pub enum Class {
    /// "15 begins 40102 and 17 begins 03100, 03212, …".
    A,
    /// "Digits 7 to 9 of 14 are 000 to 005, and 17 begins 40204, or begins
    /// 40503, 40603 or 40703 with its 14th digit, counted from 1, being 4."
    B,
    /// "Otherwise O, ordinary."
    O,
}

/// What field 15 begins with in class A.
const CLASS_A_BANK: &[u8] = b"40102";

/// What field 17 may begin with in class A.
const CLASS_A_ACCOUNTS: [&[u8]; 12] = [
    b"03100", b"03212", b"03222", b"03232", b"03242", b"03252", b"03262", b"03272", b"03214",
    b"03224", b"03234", b"03244",
];

/// What field 17 begins with in class B whatever its 14th digit.
const CLASS_B_ACCOUNT: &[u8] = b"40204";

/// What field 17 may begin with in class B if its 14th digit is 4.
const CLASS_B_MARKED_ACCOUNTS: [&[u8]; 3] = [b"40503", b"40603", b"40703"];

/// The account of rules 19 and 28.
const TREASURY: &[u8] = b"03100";

/// The account of rules 7, 20 and 22.
const BUDGET_INSTITUTION: &[u8] = b"03212";

/// The text "0".
const ZERO: &[u8] = b"0";

/// The text "00".
const DOUBLE_ZERO: &[u8] = b"00";

/// The statuses that some date allows: those of the paper and 02, "in ascending
/// order".
pub(crate) const STATUSES: [&[u8]; 23] = [
    b"01", b"02", b"03", b"04", b"05", b"06", b"07", b"08", b"13", b"15", b"16", b"17", b"19",
    b"20", b"23", b"24", b"27", b"28", b"29", b"30", b"31", b"32", b"33",
];

/// Rule 15's texts in its order: "0", "00", УВ, ИЛ, ПБ, ТГ, ТБ, ТД, ПВ, ИН,
/// ПК, КЭ.
pub(crate) const BASES: [&[u8]; 12] = [
    ZERO,
    DOUBLE_ZERO,
    b"\xD3\xC2",
    b"\xC8\xCB",
    b"\xCF\xC1",
    b"\xD2\xC3",
    b"\xD2\xC1",
    b"\xD2\xC4",
    b"\xCF\xC2",
    b"\xC8\xCD",
    b"\xCF\xCA",
    b"\xCA\xDD",
];

/// "Ten digits: weights 2 4 10 3 5 9 4 6 8 over the first nine".
const INN_TENTH_WEIGHTS: [u32; 9] = [2, 4, 10, 3, 5, 9, 4, 6, 8];

/// "Twelve: weights 7 2 4 10 3 5 9 4 6 8 give the eleventh".
const INN_ELEVENTH_WEIGHTS: [u32; 10] = [7, 2, 4, 10, 3, 5, 9, 4, 6, 8];

/// "Then 3 7 2 4 10 3 5 9 4 6 8 give the twelfth".
const INN_TWELFTH_WEIGHTS: [u32; 11] = [3, 7, 2, 4, 10, 3, 5, 9, 4, 6, 8];

/// The greatest nine digits of a pension number that rule 35 takes with any last
/// two: "a number above 1001998".
const SNILS_UNCHECKED_MAX: u32 = 1_001_998;

/// Rule 35's weights: "the nine digits times 9, 8, down to 1".
const SNILS_WEIGHTS: [u32; 9] = [9, 8, 7, 6, 5, 4, 3, 2, 1];

/// The number of a rule.
#[derive(Clone, Copy)]
struct Rule(u8);

/// The number of a status of rule 10's list.
#[derive(Clone, Copy, PartialEq, Eq)]
struct Status(u8);

impl Status {
    /// Rule 10: "A status is in rule 10's list … exactly when the date allows it."
    fn parse(text: &[u8], dates: Dates) -> Option<Self> {
        if !(STATUSES.contains(&text) && dates.allow(text)) {
            return None;
        }
        number(text).and_then(|n| n.try_into().ok()).map(Self)
    }

    /// Rule 19's statuses: "Status 02 joins rule 19."
    const fn is_treasury(self) -> bool {
        matches!(self.0, 1 | 2 | 4 | 6 | 7 | 13 | 16 | 17 | 28 | 30 | 32)
    }

    /// "06 07 16 17 28 30 32 (the customs group, this paper's)".
    const fn is_customs(self) -> bool {
        matches!(self.0, 6 | 7 | 16 | 17 | 28 | 30 | 32)
    }

    /// Rule 25's statuses.
    const fn is_person(self) -> bool {
        matches!(self.0, 3 | 19 | 20 | 24)
    }

    /// The statuses of rules 21 and 26.
    const fn needs_uin(self) -> bool {
        matches!(self.0, 31 | 33)
    }

    /// Rule 23: "by status: 01, 32 an INN; 06, 07 of 10 digits; 17 of 12
    /// digits; 30 "0"".
    const fn allows_payer(self, payer: Payer) -> bool {
        match self.0 {
            1 | 32 => payer.is_inn(),
            6 | 7 => matches!(payer, Payer::Inn10),
            17 => matches!(payer, Payer::Inn12),
            30 => matches!(payer, Payer::Zero),
            _ => true,
        }
    }
}

/// The forms of field 22 (rule 7).
#[derive(Clone, Copy, PartialEq, Eq)]
enum Code {
    Zero,
    FourDigits,
    Uin,
}

impl Code {
    /// Rule 7: ""0"; or 20 or 25 digits not all zero (a UIN); or four digits
    /// not all zero if 17 begins 03212".
    fn parse(text: &[u8], account: &[u8]) -> Option<Self> {
        if text == ZERO {
            return Some(Self::Zero);
        }
        if all_zero(text) {
            return None;
        }
        if is_digits(text, 20) || is_digits(text, 25) {
            return Some(Self::Uin);
        }
        (is_digits(text, 4) && account.starts_with(BUDGET_INSTITUTION)).then_some(Self::FourDigits)
    }
}

/// The forms of field 60 (rule 8).
#[derive(Clone, Copy, PartialEq, Eq)]
enum Payer {
    Zero,
    Foreign,
    Inn10,
    Inn12,
}

impl Payer {
    /// Rule 8: ""0"; 5 digits not all zero (a foreign code); 10 or 12 digits
    /// not beginning 00 (an INN)". "Rules 8 and 9 now also want the tax service's
    /// check digits."
    fn parse(text: &[u8]) -> Option<Self> {
        if text == ZERO {
            Some(Self::Zero)
        } else if is_digits(text, 5) && !all_zero(text) {
            Some(Self::Foreign)
        } else if is_inn10(text) {
            Some(Self::Inn10)
        } else if is_inn12(text) {
            Some(Self::Inn12)
        } else {
            None
        }
    }

    /// An INN of either length: "Wherever a rule says INN it means this", with
    /// its check digits.
    const fn is_inn(self) -> bool {
        matches!(self, Self::Inn10 | Self::Inn12)
    }
}

/// The forms of field 106 (rule 15).
#[derive(Clone, Copy, PartialEq, Eq)]
enum Basis {
    Zero,
    DoubleZero,
    LetterPair,
}

impl Basis {
    fn parse(text: &[u8]) -> Option<Self> {
        match text {
            ZERO => Some(Self::Zero),
            DOUBLE_ZERO => Some(Self::DoubleZero),
            _ => BASES.contains(&text).then_some(Self::LetterPair),
        }
    }
}

/// The forms of field 108 (rule 17), as far as later rules tell them apart.
#[derive(Clone, Copy, PartialEq, Eq)]
enum Document<'a> {
    Zero,
    DoubleZero,
    /// A person identifier of type 14, with what stands after its ";".
    Snils(&'a [u8]),
    /// A person identifier of another type.
    Person,
    Other,
}

impl<'a> Document<'a> {
    /// Rule 17: "1 to 15 bytes, each 33 to 126 or 192 to 255 and not 45 (the
    /// hyphen). If the third is ";", it must be a person identifier".
    fn parse(text: &'a [u8]) -> Option<Self> {
        let allowed = |byte: &u8| matches!(byte, 33..=44 | 46..=126 | 192..=255);
        if !(1..=15).contains(&text.len()) || !text.iter().all(allowed) {
            return None;
        }
        match text {
            ZERO => Some(Self::Zero),
            DOUBLE_ZERO => Some(Self::DoubleZero),
            [_, _, b';', ..] if !is_person_identifier(text) => None,
            [b'1', b'4', b';', snils @ ..] => Some(Self::Snils(snils)),
            [_, _, b';', ..] => Some(Self::Person),
            _ => Some(Self::Other),
        }
    }
}

/// "Two digits of 01 to 14, 22, 24, 25, 26, 28, 29, 30, then ";", then at least
/// one byte."
pub(crate) fn is_person_identifier(text: &[u8]) -> bool {
    let &[first, second, b';', _, ..] = text else {
        return false;
    };
    matches!(
        number(&[first, second]),
        Some(1..=14 | 22 | 24..=26 | 28..=30)
    )
}

/// Rule 35: "exactly 11 digits after the ";". Where the first nine digits read as
/// a number above 1001998, the last two must equal the sum of the nine digits
/// times 9, 8, down to 1, modulo 101, with 100 written 00".
pub(crate) fn is_snils(text: &[u8]) -> bool {
    if !is_digits(text, 11) {
        return false;
    }
    let (nine, last_two) = text.split_at(9);
    number(nine).is_some_and(|value| value <= SNILS_UNCHECKED_MAX)
        || number(last_two) == Some(weighted_sum(nine, &SNILS_WEIGHTS) % 101 % 100)
}

/// The forms of field 109 (rule 18).
#[derive(Clone, Copy, PartialEq, Eq)]
enum DocumentDate {
    Zero,
    DoubleZero,
    Day,
}

impl DocumentDate {
    /// Rule 18: ""0", "00", or DD.MM.YYYY, a Gregorian date of the years 1900
    /// to 2099".
    fn parse(text: &[u8]) -> Option<Self> {
        match text {
            ZERO => Some(Self::Zero),
            DOUBLE_ZERO => Some(Self::DoubleZero),
            _ => is_date(text).then_some(Self::Day),
        }
    }
}

pub(crate) fn is_date(text: &[u8]) -> bool {
    let &[d1, d2, b'.', m1, m2, b'.', y1, y2, y3, y4] = text else {
        return false;
    };
    let (Some(day), Some(month), Some(year)) = (
        number(&[d1, d2]),
        number(&[m1, m2]),
        number(&[y1, y2, y3, y4]),
    ) else {
        return false;
    };
    is_gregorian(day, month, year)
}

/// A text of so many digits; "a digit is "0" to "9"".
pub(crate) fn is_digits(text: &[u8], width: usize) -> bool {
    text.len() == width && text.iter().all(u8::is_ascii_digit)
}

/// ""All zero" means every digit is "0"."
pub(crate) fn all_zero(digits: &[u8]) -> bool {
    digits.iter().all(|&digit| digit == b'0')
}

/// So many digits not all zero.
pub(crate) fn is_nonzero(text: &[u8], width: usize) -> bool {
    is_digits(text, width) && !all_zero(text)
}

/// So many digits not beginning 00, as in an INN.
fn is_registered(text: &[u8], width: usize) -> bool {
    is_digits(text, width) && !text.starts_with(DOUBLE_ZERO)
}

/// An INN of 10 digits not beginning 00. "Ten digits: weights 2 4 10 3 5 9 4 6 8
/// over the first nine, sum modulo 11 modulo 10, is the tenth."
pub(crate) fn is_inn10(text: &[u8]) -> bool {
    is_registered(text, 10) && is_checked(text, &INN_TENTH_WEIGHTS)
}

/// An INN of 12 digits not beginning 00. "Twelve: weights 7 2 4 10 3 5 9 4 6 8
/// give the eleventh, then 3 7 2 4 10 3 5 9 4 6 8 give the twelfth."
pub(crate) fn is_inn12(text: &[u8]) -> bool {
    is_registered(text, 12)
        && is_checked(text, &INN_ELEVENTH_WEIGHTS)
        && is_checked(text, &INN_TWELFTH_WEIGHTS)
}

/// Whether the digit after the weighted ones is their "sum modulo 11 modulo 10".
fn is_checked(digits: &[u8], weights: &[u32]) -> bool {
    let check = weighted_sum(digits, weights) % 11 % 10;
    digits
        .get(weights.len())
        .map(|digit| u32::from(digit - b'0'))
        == Some(check)
}

/// A KPP: nine digits not beginning 00, but at places 5 and 6 rules 11 and 12
/// "accept "A" to "Z" there besides digits, and digits alone elsewhere".
pub(crate) fn is_kpp(text: &[u8]) -> bool {
    if text.len() != 9 {
        return false;
    }
    let (office, rest) = text.split_at(4);
    let (reason, serial) = rest.split_at(2);
    is_registered(office, 4)
        && reason
            .iter()
            .all(|byte| byte.is_ascii_digit() || byte.is_ascii_uppercase())
        && is_digits(serial, 3)
}

/// The number written by a few digits.
fn number(digits: &[u8]) -> Option<u32> {
    digits.iter().try_fold(0, |value, digit| {
        digit
            .is_ascii_digit()
            .then(|| value * 10 + u32::from(digit - b'0'))
    })
}

/// The sum of the first digits, as many as there are weights, each times its
/// weight.
fn weighted_sum(digits: &[u8], weights: &[u32]) -> u32 {
    digits
        .iter()
        .zip(weights)
        .map(|(digit, weight)| u32::from(digit - b'0') * weight)
        .sum()
}

/// The rule as broken, with the field in brackets.
const fn broken(field: Field, Rule(rule): Rule) -> Broken {
    Broken {
        field: field.number(),
        rule,
    }
}

/// Goes on if the rule is kept.
fn require(kept: bool, field: Field, rule: Rule) -> Result<(), Broken> {
    if kept {
        Ok(())
    } else {
        Err(broken(field, rule))
    }
}

/// The statuses "in rule 10's list, and in the completion list, in ascending order,
/// exactly when the date allows" them.
pub fn statuses(date: Date, record: Record) -> impl Iterator<Item = &'static [u8]> {
    STATUSES
        .into_iter()
        .filter(move |status| record.allows(date, status))
}

/// Checks the sheet of an order with this date. The rules are "tested in number
/// order; the first broken one is named with the field in brackets", but "22 is
/// tested ahead of 21"; "acceptance returns the class".
///
/// # Errors
///
/// In this order: [`Refusal::Malformed`], [`Refusal::Undated`] ("it comes just
/// before 8"), [`Refusal::Broken`] with the first broken rule: it "is counted in
/// the new order".
pub fn check(sheet: &[u8], date: Date, record: Record) -> Result<Class, Refusal> {
    let sheet = Sheet::parse(sheet).ok_or(Refusal::Malformed)?;
    let dates = Dates::new(date, record)?;
    Ok(judge(&sheet, dates)?)
}

/// Rules 1 to 35: "Acceptance and completion count 35 among the rules".
pub(crate) fn judge(sheet: &Sheet<'_>, dates: Dates) -> Result<Class, Broken> {
    let class = classify(sheet)?;
    if class == Class::O {
        // "A class O sheet that keeps 1 to 4 is accepted; the rest is for A
        // and B."
        require(sheet[Field::Status].is_empty(), Field::Status, Rule(4))?;
    } else {
        Order::parse(sheet, class, dates)?.relations()?;
    }
    Ok(class)
}

/// Rules 1 to 3, and the class of a sheet that keeps them.
pub(crate) fn classify(sheet: &Sheet<'_>) -> Result<Class, Broken> {
    let bik = sheet[Field::Bik];
    let bank = sheet[Field::BankAccount];
    let account = sheet[Field::RecipientAccount];
    require(is_digits(bik, 9), Field::Bik, Rule(1))?;
    require(
        bank.is_empty() || is_digits(bank, 20),
        Field::BankAccount,
        Rule(2),
    )?;
    require(is_digits(account, 20), Field::RecipientAccount, Rule(3))?;
    Ok(if is_class_a(bank, account) {
        Class::A
    } else if is_class_b(bik, account) {
        Class::B
    } else {
        Class::O
    })
}

pub(crate) fn begins_with_any(text: &[u8], prefixes: &[&[u8]]) -> bool {
    prefixes.iter().any(|prefix| text.starts_with(prefix))
}

pub(crate) fn is_class_a(bank: &[u8], account: &[u8]) -> bool {
    bank.starts_with(CLASS_A_BANK) && begins_with_any(account, &CLASS_A_ACCOUNTS)
}

pub(crate) fn is_class_b(bik: &[u8], account: &[u8]) -> bool {
    let marked = account.get(13) == Some(&b'4');
    matches!(bik.get(6..9), Some([b'0', b'0', b'0'..=b'5']))
        && (account.starts_with(CLASS_B_ACCOUNT)
            || (marked && begins_with_any(account, &CLASS_B_MARKED_ACCOUNTS)))
}

/// A rule judged by itself on a sheet of class A or B, whatever the sheet's
/// other rules say.
pub(crate) type LoneRule = fn(&Sheet<'_>, Class) -> Result<(), Broken>;

/// "Rules 5 to 9, 11 to 14, 16, 22 and 28", in the order of testing.
pub(crate) const AHEAD: [LoneRule; 12] = [
    rule_5,
    |sheet, _| rule_6(sheet),
    |sheet, _| rule_7(sheet).map(drop),
    |sheet, _| rule_8(sheet).map(drop),
    |sheet, _| rule_9(sheet),
    |sheet, _| rule_11(sheet),
    |sheet, _| rule_12(sheet),
    |sheet, _| rule_13(sheet),
    |sheet, _| rule_14(sheet),
    |sheet, _| rule_16(sheet),
    |sheet, _| rule_22(sheet),
    |sheet, _| rule_28(sheet),
];

/// Rule 5: "(17) class A: digits 6 to 8 are 643".
fn rule_5(sheet: &Sheet<'_>, class: Class) -> Result<(), Broken> {
    let account = sheet[Field::RecipientAccount];
    let kept = class != Class::A || account.get(5..8) == Some(b"643");
    require(kept, Field::RecipientAccount, Rule(5))
}

/// Rule 6: "(the first blank one) 22, 60, 61, 101 to 109 not blank".
fn rule_6(sheet: &Sheet<'_>) -> Result<(), Broken> {
    Field::ALL
        .into_iter()
        .skip(Field::Code.slot())
        .try_for_each(|field| require(!sheet[field].is_empty(), field, Rule(6)))
}

/// Rule 7, on field 22; gives its form.
fn rule_7(sheet: &Sheet<'_>) -> Result<Code, Broken> {
    Code::parse(sheet[Field::Code], sheet[Field::RecipientAccount])
        .ok_or(broken(Field::Code, Rule(7)))
}

/// Rule 8, on field 60; gives its form.
fn rule_8(sheet: &Sheet<'_>) -> Result<Payer, Broken> {
    Payer::parse(sheet[Field::PayerInn]).ok_or(broken(Field::PayerInn, Rule(8)))
}

/// Rule 9: "(61) 10 digits not beginning 00", an INN with its check digit.
fn rule_9(sheet: &Sheet<'_>) -> Result<(), Broken> {
    let kept = is_inn10(sheet[Field::RecipientInn]);
    require(kept, Field::RecipientInn, Rule(9))
}

/// Rule 11: "(102) "0" or nine digits not beginning 00", as in [`is_kpp`].
fn rule_11(sheet: &Sheet<'_>) -> Result<(), Broken> {
    let kpp = sheet[Field::PayerKpp];
    require(kpp == ZERO || is_kpp(kpp), Field::PayerKpp, Rule(11))
}

/// Rule 12: "(103) nine digits not beginning 00", as in [`is_kpp`].
fn rule_12(sheet: &Sheet<'_>) -> Result<(), Broken> {
    let kept = is_kpp(sheet[Field::RecipientKpp]);
    require(kept, Field::RecipientKpp, Rule(12))
}

/// Rule 13: "(104) "0" or 20 digits not all zero".
fn rule_13(sheet: &Sheet<'_>) -> Result<(), Broken> {
    let kbk = sheet[Field::Kbk];
    require(kbk == ZERO || is_nonzero(kbk, 20), Field::Kbk, Rule(13))
}

/// Rule 14: "(105) "0" or 8 digits not all zero".
fn rule_14(sheet: &Sheet<'_>) -> Result<(), Broken> {
    let oktmo = sheet[Field::Oktmo];
    let kept = oktmo == ZERO || is_nonzero(oktmo, 8);
    require(kept, Field::Oktmo, Rule(14))
}

/// Rule 16: "(107) "0" or 8 digits".
fn rule_16(sheet: &Sheet<'_>) -> Result<(), Broken> {
    let office = sheet[Field::CustomsOffice];
    let kept = office == ZERO || is_digits(office, 8);
    require(kept, Field::CustomsOffice, Rule(16))
}

/// Rule 22: "(22) 17 begins 03212: not "0"".
fn rule_22(sheet: &Sheet<'_>) -> Result<(), Broken> {
    let institution = sheet[Field::RecipientAccount].starts_with(BUDGET_INSTITUTION);
    let kept = !institution || sheet[Field::Code] != ZERO;
    require(kept, Field::Code, Rule(22))
}

/// Rule 28: "(104) 17 begins 03100: not "0"".
fn rule_28(sheet: &Sheet<'_>) -> Result<(), Broken> {
    let treasury = sheet[Field::RecipientAccount].starts_with(TREASURY);
    let kept = !treasury || sheet[Field::Kbk] != ZERO;
    require(kept, Field::Kbk, Rule(28))
}

/// Rule 10, on field 101; gives its number.
fn rule_10(sheet: &Sheet<'_>, dates: Dates) -> Result<Status, Broken> {
    Status::parse(sheet[Field::Status], dates).ok_or(broken(Field::Status, Rule(10)))
}

/// Whether "a rule that reads neither 106, 108 nor 109 (5, 7 to 14, 16, 19 to 24,
/// 27, 28, 30) fails" for a filling of class A or B, and so for all fillings of its
/// status.
pub(crate) fn fails_for_status(sheet: &Sheet<'_>, class: Class, dates: Dates) -> bool {
    status_rules(sheet, class, dates).is_err()
}

/// Rules 5, 7 to 14, 16, 19 to 24, 27, 28 and 30.
fn status_rules(sheet: &Sheet<'_>, class: Class, dates: Dates) -> Result<(), Broken> {
    rule_5(sheet, class)?;
    let code = rule_7(sheet)?;
    let payer = rule_8(sheet)?;
    rule_9(sheet)?;
    let status = rule_10(sheet, dates)?;
    rule_11(sheet)?;
    rule_12(sheet)?;
    rule_13(sheet)?;
    rule_14(sheet)?;
    rule_16(sheet)?;
    let frame = Frame {
        sheet,
        class,
        code,
        payer,
        status,
    };
    frame.rules_19_to_24()?;
    frame.rule_27()?;
    rule_28(sheet)?;
    frame.rule_30()
}

/// Whether the texts of SWIFT lines "keep rules 1, 2, 3, 5, 7, 9, 10 and 12 and make
/// class A". Rule 10 has every status that some date allows here: "its reader takes 02
/// as well".
pub(crate) fn keeps_line_rules(sheet: &Sheet<'_>) -> bool {
    classify(sheet) == Ok(Class::A)
        && rule_5(sheet, Class::A).is_ok()
        && rule_7(sheet).is_ok()
        && rule_9(sheet).is_ok()
        && STATUSES.contains(&sheet[Field::Status])
        && rule_12(sheet).is_ok()
}

/// A budget payment without 106, 108 and 109, with what rules 7, 8 and 10 find out
/// about it for rules 19 to 35.
struct Frame<'a> {
    sheet: &'a Sheet<'a>,
    class: Class,
    code: Code,
    payer: Payer,
    status: Status,
}

impl Frame<'_> {
    /// Rules 19 to 24, 22 ahead of 21.
    fn rules_19_to_24(&self) -> Result<(), Broken> {
        let class_a = self.class == Class::A;
        let account = self.sheet[Field::RecipientAccount];
        require(
            !(class_a && self.status.is_treasury()) || account.starts_with(TREASURY),
            Field::RecipientAccount,
            Rule(19),
        )?;
        require(
            !(class_a && self.status == Status(31)) || account.starts_with(BUDGET_INSTITUTION),
            Field::RecipientAccount,
            Rule(20),
        )?;
        // "22 is tested ahead of 21, both keeping their numbers."
        rule_22(self.sheet)?;
        require(
            !self.status.needs_uin() || self.code == Code::Uin,
            Field::Code,
            Rule(21),
        )?;
        require(
            self.status.allows_payer(self.payer),
            Field::PayerInn,
            Rule(23),
        )?;
        require(
            self.status != Status(13) || self.payer.is_inn() || self.code == Code::Uin,
            Field::PayerInn,
            Rule(24),
        )
    }

    /// Rule 27: "60 of 12 digits: "0"; of 5: not "0"; of 10: not "0" unless
    /// status 01". With rule 8 kept, 10 or 12 digits are an INN. By rule 11 "a
    /// KPP other than "0" has this form", [`is_kpp`].
    fn rule_27(&self) -> Result<(), Broken> {
        let zero = self.sheet[Field::PayerKpp] == ZERO;
        let kept = match self.payer {
            Payer::Zero => true,
            Payer::Foreign => !zero,
            Payer::Inn10 => !zero || self.status == Status(1),
            Payer::Inn12 => zero,
        };
        require(kept, Field::PayerKpp, Rule(27))
    }

    /// Rule 30: "(107) customs group: 8 digits; otherwise "0"". With rule 16 kept,
    /// what isn't "0" is 8 digits.
    fn rule_30(&self) -> Result<(), Broken> {
        let office = self.sheet[Field::CustomsOffice] != ZERO;
        let kept = self.status.is_customs() == office;
        require(kept, Field::CustomsOffice, Rule(30))
    }
}

/// A budget payment, with what rules 5 to 18 find out about it for rules 19 to
/// 35.
struct Order<'a> {
    frame: Frame<'a>,
    basis: Basis,
    document: Document<'a>,
    date: DocumentDate,
}

impl<'a> Order<'a> {
    /// Rules 5 to 18: each field's own form.
    fn parse(sheet: &'a Sheet<'a>, class: Class, dates: Dates) -> Result<Self, Broken> {
        rule_5(sheet, class)?;
        rule_6(sheet)?;
        let code = rule_7(sheet)?;
        let payer = rule_8(sheet)?;
        rule_9(sheet)?;
        let status = rule_10(sheet, dates)?;
        rule_11(sheet)?;
        rule_12(sheet)?;
        rule_13(sheet)?;
        rule_14(sheet)?;
        let basis = Basis::parse(sheet[Field::Basis]).ok_or(broken(Field::Basis, Rule(15)))?;
        rule_16(sheet)?;
        let document =
            Document::parse(sheet[Field::Document]).ok_or(broken(Field::Document, Rule(17)))?;
        let date = DocumentDate::parse(sheet[Field::Date]).ok_or(broken(Field::Date, Rule(18)))?;

        Ok(Self {
            frame: Frame {
                sheet,
                class,
                code,
                payer,
                status,
            },
            basis,
            document,
            date,
        })
    }

    /// Rules 19 to 35, 22 ahead of 21: what the fields demand of one another.
    fn relations(&self) -> Result<(), Broken> {
        let frame = &self.frame;
        let customs = frame.status.is_customs();

        frame.rules_19_to_24()?;
        require(
            !frame.status.is_person() || self.names_person(),
            Field::Document,
            Rule(25),
        )?;
        require(
            !frame.status.needs_uin() || self.document == Document::Zero,
            Field::Document,
            Rule(26),
        )?;
        frame.rule_27()?;
        rule_28(frame.sheet)?;
        require(customs || self.basis == Basis::Zero, Field::Basis, Rule(29))?;
        frame.rule_30()?;
        require(
            customs || self.date == DocumentDate::Zero,
            Field::Date,
            Rule(31),
        )?;
        require(
            self.basis != Basis::LetterPair || self.document != Document::Zero,
            Field::Document,
            Rule(32),
        )?;
        require(
            self.basis != Basis::DoubleZero || self.document == Document::DoubleZero,
            Field::Document,
            Rule(33),
        )?;
        require(
            (self.date == DocumentDate::DoubleZero) == (self.basis == Basis::DoubleZero),
            Field::Date,
            Rule(34),
        )?;
        require(self.keeps_snils(), Field::Document, Rule(35))
    }

    /// Rule 25: "a person identifier; or "0" with a 12-digit INN in 60 or a UIN
    /// in 22".
    fn names_person(&self) -> bool {
        match self.document {
            Document::Snils(_) | Document::Person => true,
            Document::Zero => self.frame.payer == Payer::Inn12 || self.frame.code == Code::Uin,
            Document::DoubleZero | Document::Other => false,
        }
    }

    /// Rule 35, "tested after 34": "an identifier of type 14 has exactly 11
    /// digits after the ";"", and what [`is_snils`] asks of them.
    fn keeps_snils(&self) -> bool {
        match self.document {
            Document::Snils(snils) => is_snils(snils),
            Document::Zero | Document::DoubleZero | Document::Person | Document::Other => true,
        }
    }
}

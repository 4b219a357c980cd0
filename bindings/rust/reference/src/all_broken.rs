//! All rules that a sheet breaks.
//!
//! Each rule is judged by its own sentence on the texts as they are, whatever the others
//! say of them: a status that rule 10 doesn't list may stand in a rule's group all the
//! same, and the class is asked of 14, 15 and 17 also where one of rules 1 to 3 is broken.

use crate::dates::{Date, Dates, Record};
use crate::field::Field;
use crate::refusal::Refusal;
use crate::rules::{all_zero, begins_with_any, is_class_a, is_class_b, is_date, is_digits};
use crate::rules::{is_inn10, is_inn12, is_kpp, is_nonzero, is_person_identifier, is_snils};
use crate::rules::{BASES, STATUSES};
use crate::sheet::Sheet;

/// The set of all rules that a sheet breaks, "bit n for rule n".
///
/// # Errors
///
/// As in a check, in this order: [`Refusal::Malformed`], [`Refusal::Undated`].
pub fn broken_rules(sheet: &[u8], date: Date, record: Record) -> Result<u64, Refusal> {
    let sheet = Sheet::parse(sheet).ok_or(Refusal::Malformed)?;
    let dates = Dates::new(date, record)?;
    let mut set = 0;
    for (rule, kept) in (1..).zip(outcomes(&sheet, dates)) {
        if !kept {
            set |= 1 << rule;
        }
    }
    Ok(set)
}

/// Whether each of rules 1 to 35 is kept, in number order.
fn outcomes(sheet: &Sheet<'_>, dates: Dates) -> Vec<bool> {
    let bik = sheet[Field::Bik];
    let bank = sheet[Field::BankAccount];
    let account = sheet[Field::RecipientAccount];
    let class_a = is_class_a(bank, account);
    let budget = class_a || is_class_b(bik, account);
    let mut kept = vec![
        is_digits(bik, 9),
        bank.is_empty() || is_digits(bank, 20),
        is_digits(account, 20),
        budget || sheet[Field::Status].is_empty(),
    ];
    // "A class O sheet that keeps 1 to 4 is accepted; the rest is for A and B."
    let rest = for_budget(sheet, class_a, dates);
    kept.extend(rest.map(|kept| kept || !budget));
    kept
}

/// Rules 5 to 35 of a sheet of class A or B.
fn for_budget(sheet: &Sheet<'_>, class_a: bool, dates: Dates) -> [bool; 31] {
    let account = sheet[Field::RecipientAccount];
    let code = sheet[Field::Code];
    let payer = sheet[Field::PayerInn];
    let status = sheet[Field::Status];
    let payer_kpp = sheet[Field::PayerKpp];
    let kbk = sheet[Field::Kbk];
    let oktmo = sheet[Field::Oktmo];
    let basis = sheet[Field::Basis];
    let office = sheet[Field::CustomsOffice];
    let document = sheet[Field::Document];
    let date = sheet[Field::Date];

    let is_one_of = |statuses: &[&[u8]]| statuses.contains(&status);
    let customs = is_one_of(&[b"06", b"07", b"16", b"17", b"28", b"30", b"32"]);
    let treasury = customs || is_one_of(&[b"01", b"02", b"04", b"13"]);
    let courts = is_one_of(&[b"31", b"33"]);
    let to_treasury = begins_with_any(account, &[b"03100"]);
    let to_institution = begins_with_any(account, &[b"03212"]);
    let is_uin = is_nonzero(code, 20) || is_nonzero(code, 25);
    let is_inn = is_inn10(payer) || is_inn12(payer);
    let person = is_person_identifier(document);
    let pair = BASES[2..].contains(&basis);
    let [zero_code, zero_payer, zero_kpp, zero_kbk, zero_oktmo] =
        [code, payer, payer_kpp, kbk, oktmo].map(|text| text == b"0");
    let [zero_basis, zero_office, zero_document, zero_date] =
        [basis, office, document, date].map(|text| text == b"0");
    let [double_basis, double_document, double_date] =
        [basis, document, date].map(|text| text == b"00");
    let writable = |byte: &u8| matches!(byte, 33..=126 | 192..=255) && *byte != 45;

    [
        // 5: "class A: digits 6 to 8 are 643".
        !class_a || account.get(5..8) == Some(b"643"),
        // 6: "22, 60, 61, 101 to 109 not blank".
        Field::ALL[3..]
            .iter()
            .all(|&field| !sheet[field].is_empty()),
        // 7
        zero_code || is_uin || (is_digits(code, 4) && !all_zero(code) && to_institution),
        // 8
        zero_payer || is_nonzero(payer, 5) || is_inn,
        // 9
        is_inn10(sheet[Field::RecipientInn]),
        // 10: "exactly when the date allows it".
        STATUSES.contains(&status) && dates.allow(status),
        // 11
        zero_kpp || is_kpp(payer_kpp),
        // 12
        is_kpp(sheet[Field::RecipientKpp]),
        // 13
        zero_kbk || is_nonzero(kbk, 20),
        // 14
        zero_oktmo || is_nonzero(oktmo, 8),
        // 15
        BASES.contains(&basis),
        // 16
        zero_office || is_digits(office, 8),
        // 17: "If the third is ";", it must be a person identifier".
        (1..=15).contains(&document.len())
            && document.iter().all(writable)
            && (document.get(2) != Some(&b';') || person),
        // 18
        zero_date || double_date || is_date(date),
        // 19
        !(class_a && treasury) || to_treasury,
        // 20
        !(class_a && status == b"31") || to_institution,
        // 21
        !courts || is_uin,
        // 22
        !to_institution || !zero_code,
        // 23: "by status".
        match status {
            b"01" | b"32" => is_inn,
            b"06" | b"07" => is_inn10(payer),
            b"17" => is_inn12(payer),
            b"30" => zero_payer,
            _ => true,
        },
        // 24
        status != b"13" || is_inn || is_uin,
        // 25
        !is_one_of(&[b"03", b"19", b"20", b"24"])
            || person
            || (zero_document && (is_inn12(payer) || is_uin)),
        // 26
        !courts || zero_document,
        // 27: "60 of 12 digits: "0"; of 5: not "0"; of 10: not "0" unless status 01".
        match payer.len() {
            12 if is_digits(payer, 12) => zero_kpp,
            10 if is_digits(payer, 10) => !zero_kpp || status == b"01",
            5 if is_digits(payer, 5) => !zero_kpp,
            _ => true,
        },
        // 28
        !to_treasury || !zero_kbk,
        // 29
        customs || zero_basis,
        // 30: "customs group: 8 digits; otherwise "0"".
        if customs {
            is_digits(office, 8)
        } else {
            zero_office
        },
        // 31
        customs || zero_date,
        // 32
        !pair || !zero_document,
        // 33
        !double_basis || double_document,
        // 34: ""00" exactly if 106 is "00"".
        double_date == double_basis,
        // 35: "an identifier of type 14".
        document.strip_prefix(b"14;").is_none_or(is_snils),
    ]
}

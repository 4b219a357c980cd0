//! Whole orders: accepted ones by construction, and those near them.

use crate::dates::Dates;
use crate::forms::{self, CLASS_A, CLASS_B};
use crate::random::Random;
use crate::texts::{Text, Texts, FIELDS, FILLABLE};

/// What field 17 begins with, as far as the rules tell it apart.
#[derive(Clone, Copy, Debug, PartialEq, Eq)]
pub enum Account {
    /// Class A, 03100.
    Treasury,
    /// Class A, 03212.
    Institution,
    /// Class A, another beginning.
    OtherA,
    /// Class B.
    B,
}

/// The forms of field 22.
#[derive(Clone, Copy, Debug, PartialEq, Eq)]
pub enum Code {
    /// "0".
    Zero,
    /// Four digits.
    Four,
    /// A UIN.
    Uin,
}

/// The forms of field 60.
#[derive(Clone, Copy, Debug, PartialEq, Eq)]
pub enum Payer {
    /// "0".
    Zero,
    /// A foreign code of 5 digits.
    Foreign,
    /// An INN of 10 digits.
    Inn10,
    /// An INN of 12 digits.
    Inn12,
}

/// The forms of field 106.
#[derive(Clone, Copy, Debug, PartialEq, Eq)]
pub enum Basis {
    /// "0".
    Zero,
    /// "00".
    DoubleZero,
    /// A letter pair.
    Pair,
}

/// The forms of field 108.
#[derive(Clone, Copy, Debug, PartialEq, Eq)]
pub enum Document {
    /// "0".
    Zero,
    /// "00".
    DoubleZero,
    /// A person identifier.
    Person,
    /// Another text.
    Other,
}

/// The forms of field 109.
#[derive(Clone, Copy, Debug, PartialEq, Eq)]
pub enum Date {
    /// "0".
    Zero,
    /// "00".
    DoubleZero,
    /// A day.
    Day,
}

/// The forms of a budget payment's fields; `None` is a blank, false is "0".
#[derive(Clone, Copy, Debug)]
pub struct Forms {
    /// Fields 14, 15 and 17.
    pub account: Account,
    /// Field 22.
    pub code: Code,
    /// Field 60.
    pub payer: Payer,
    /// Field 101.
    pub status: Option<&'static str>,
    /// Field 102.
    pub kpp: bool,
    /// Field 104.
    pub kbk: bool,
    /// Field 105.
    pub oktmo: bool,
    /// Field 106.
    pub basis: Option<Basis>,
    /// Field 107.
    pub office: bool,
    /// Field 108.
    pub document: Option<Document>,
    /// Field 109.
    pub date: Option<Date>,
}

/// An order whose fields have these forms, the texts by chance.
pub fn with_forms(random: &mut Random, forms: &Forms) -> Texts {
    let mut texts = Texts::BLANK;
    set_accounts(random, &mut texts, forms.account);
    texts.set(22, code(random, forms.code));
    texts.set(60, payer(random, forms.payer));
    texts.set(61, forms::inn(random, 10));
    texts.set(101, Text::new(forms.status.unwrap_or_default().as_bytes()));
    texts.set(103, forms::kpp(random));
    let optional: [(u8, bool, Wide); 4] = [
        (102, forms.kpp, forms::kpp),
        (104, forms.kbk, |random| forms::nonzero(random, 20)),
        (105, forms.oktmo, |random| forms::nonzero(random, 8)),
        (107, forms.office, |random| forms::digits(random, 8)),
    ];
    for (field, given, text) in optional {
        texts.set(field, if given { text(random) } else { zero() });
    }
    texts.set(
        106,
        forms.basis.map_or(Text::BLANK, |form| basis(random, form)),
    );
    let given = forms.document.map(|form| document(random, form));
    texts.set(108, given.unwrap_or(Text::BLANK));
    texts.set(
        109,
        forms.date.map_or(Text::BLANK, |form| date(random, form)),
    );
    texts
}

type Wide = fn(&mut Random) -> Text;

fn zero() -> Text {
    Text::new(b"0")
}

fn double_zero() -> Text {
    Text::new(b"00")
}

fn set_accounts(random: &mut Random, texts: &mut Texts, account: Account) {
    let begin = match account {
        Account::Treasury => CLASS_A[0],
        Account::Institution => CLASS_A[1],
        Account::OtherA => random.pick(&CLASS_A[2..]),
        Account::B => random.pick(&CLASS_B),
    };
    if account == Account::B {
        let mut bik = forms::digits(random, 6);
        let end = random.pick(&[b"000", b"001", b"002", b"003", b"004", b"005"]);
        end.iter().for_each(|&digit| bik.push(digit));
        texts.set(14, bik);
        if random.percent(50) {
            texts.set(15, forms::digits(random, 20));
        }
        let mut text = forms::digits_after(random, begin, 20);
        if begin != CLASS_B[0] {
            text.bytes_mut()[13] = b'4';
        }
        texts.set(17, text);
    } else {
        texts.set(14, forms::digits(random, 9));
        texts.set(15, forms::digits_after(random, "40102", 20));
        texts.set(17, forms::digits_after(random, &format!("{begin}643"), 20));
    }
}

fn code(random: &mut Random, form: Code) -> Text {
    match form {
        Code::Zero => zero(),
        Code::Four => forms::nonzero(random, 4),
        Code::Uin => forms::uin(random),
    }
}

fn payer(random: &mut Random, form: Payer) -> Text {
    match form {
        Payer::Zero => zero(),
        Payer::Foreign => forms::nonzero(random, 5),
        Payer::Inn10 => forms::inn(random, 10),
        Payer::Inn12 => forms::inn(random, 12),
    }
}

fn basis(random: &mut Random, form: Basis) -> Text {
    match form {
        Basis::Zero => zero(),
        Basis::DoubleZero => double_zero(),
        Basis::Pair => forms::pair(random),
    }
}

fn document(random: &mut Random, form: Document) -> Text {
    match form {
        Document::Zero => zero(),
        Document::DoubleZero => double_zero(),
        Document::Person => forms::person(random),
        Document::Other => forms::document(random),
    }
}

fn date(random: &mut Random, form: Date) -> Text {
    match form {
        Date::Zero => zero(),
        Date::DoubleZero => double_zero(),
        Date::Day => forms::date(random),
    }
}

/// An order that keeps the rules, of any class.
pub fn accepted(random: &mut Random) -> Texts {
    accepted_at(random, Dates::PROGRAM)
}

/// The same at other dates.
pub fn accepted_at(random: &mut Random, dates: Dates) -> Texts {
    if random.percent(6) {
        ordinary(random, dates)
    } else {
        budget_at(random, dates)
    }
}

/// An order of class A or B that keeps the rules.
pub fn budget(random: &mut Random) -> Texts {
    budget_at(random, Dates::PROGRAM)
}

/// The same at other dates.
pub fn budget_at(random: &mut Random, dates: Dates) -> Texts {
    let class = match random.percent(65) {
        true => class_a,
        false => class_b,
    };
    let status = random.pick(&dates.statuses());
    class(random, status)
}

/// An order of class A with this status that keeps the rules where the date allows it.
pub fn class_a(random: &mut Random, status: &'static str) -> Texts {
    let account = match status {
        "01" | "02" | "04" | "06" | "07" | "13" | "16" | "17" | "28" | "30" | "32" => {
            Account::Treasury
        }
        "31" => Account::Institution,
        _ => random.pick(&[Account::Treasury, Account::Institution, Account::OtherA]),
    };
    let forms = kept_forms(random, account, status);
    with_forms(random, &forms)
}

/// The same of class B.
fn class_b(random: &mut Random, status: &'static str) -> Texts {
    let forms = kept_forms(random, Account::B, status);
    with_forms(random, &forms)
}

/// Forms that keep rules 21 to 35.
fn kept_forms(random: &mut Random, account: Account, status: &'static str) -> Forms {
    let customs = matches!(status, "06" | "07" | "16" | "17" | "28" | "30" | "32");
    let code = match (status, account) {
        ("31" | "33", _) => Code::Uin,
        (_, Account::Institution) => random.pick(&[Code::Four, Code::Uin]),
        _ => random.pick(&[Code::Zero, Code::Uin]),
    };
    let payer = kept_payer(random, status, code);
    let basis = match customs {
        true => random.pick(&[Basis::Zero, Basis::DoubleZero, Basis::Pair]),
        false => Basis::Zero,
    };
    let date = match (customs, basis) {
        (true, Basis::DoubleZero) => Date::DoubleZero,
        (true, _) => random.pick(&[Date::Zero, Date::Day]),
        (false, _) => Date::Zero,
    };
    Forms {
        account,
        code,
        payer,
        status: Some(status),
        kpp: match payer {
            Payer::Inn12 => false,
            Payer::Foreign => true,
            Payer::Inn10 => status != "01" || random.percent(50),
            Payer::Zero => random.percent(50),
        },
        kbk: account == Account::Treasury || random.percent(50),
        oktmo: random.percent(50),
        basis: Some(basis),
        office: customs,
        document: Some(kept_document(random, status, code, payer, basis)),
        date: Some(date),
    }
}

fn kept_payer(random: &mut Random, status: &str, code: Code) -> Payer {
    use Payer::{Foreign, Inn10, Inn12, Zero};
    match status {
        "01" | "32" => random.pick(&[Inn10, Inn12]),
        "06" | "07" => Inn10,
        "17" => Inn12,
        "30" => Zero,
        "13" if code != Code::Uin => random.pick(&[Inn10, Inn12]),
        _ => random.pick(&[Zero, Foreign, Inn10, Inn12]),
    }
}

fn kept_document(
    random: &mut Random,
    status: &str,
    code: Code,
    payer: Payer,
    basis: Basis,
) -> Document {
    use Document::{DoubleZero, Other, Person, Zero};
    match (status, basis) {
        ("31" | "33", _) => Zero,
        ("03" | "19" | "20" | "24", _) if payer == Payer::Inn12 || code == Code::Uin => {
            random.pick(&[Zero, Person])
        }
        ("03" | "19" | "20" | "24", _) => Person,
        (_, Basis::DoubleZero) => DoubleZero,
        (_, Basis::Pair) => random.pick(&[DoubleZero, Person, Other]),
        (_, Basis::Zero) => random.pick(&[Zero, DoubleZero, Person, Other]),
    }
}

/// An order of class O that keeps the rules.
fn ordinary(random: &mut Random, dates: Dates) -> Texts {
    let status = random.pick(&dates.statuses());
    let mut texts = class_a(random, status).without(&[101]);
    match random.below(3) {
        0 => texts.set(15, Text::BLANK),
        1 => texts.set(15, forms::digits_after(random, "40103", 20)),
        _ => texts.set(17, forms::digits_after(random, "40702", 20)),
    }
    texts
}

/// The fields of many forms.
const MANY_FORMS: [u8; 8] = [17, 22, 60, 101, 106, 108, 108, 109];

/// Changes one text: to one that might stand there, to a blank, in a byte, or in
/// its length.
pub fn disturb(random: &mut Random, texts: &mut Texts) {
    disturb_at(random, texts, Dates::PROGRAM);
}

/// The same at other dates.
pub fn disturb_at(random: &mut Random, texts: &mut Texts, dates: Dates) {
    let field = match random.percent(60) {
        true => random.pick(&FIELDS),
        false => random.pick(&MANY_FORMS),
    };
    let mut text = texts.get(field);
    match random.below(10) {
        0 => text = Text::BLANK,
        1 => change_byte(random, &mut text),
        2 => text.push(random.pick(b"0 9\0")),
        3 => text.pop(),
        4 => text = texts.get(random.pick(&FIELDS)),
        _ => text = forms::text_for(random, field, dates),
    }
    texts.set(field, text);
}

/// Changes one byte, often to one beside the digits.
fn change_byte(random: &mut Random, text: &mut Text) {
    if !text.is_empty() {
        let place = random.below(text.len());
        let any = random.byte();
        let byte = random.pick(&[b'/', b':', b'0', b'9', 0, b' ', b'O', any]);
        text.bytes_mut()[place] = byte;
    }
}

/// The order with the fields of this set blank: bit i for the i-th field that
/// completion may fill.
#[must_use]
pub fn blanked(texts: Texts, set: usize) -> Texts {
    let blank = |bit: &usize| set >> bit & 1 == 1;
    (0..FILLABLE.len())
        .filter(blank)
        .fold(texts, |texts, bit| texts.without(&[FILLABLE[bit]]))
}

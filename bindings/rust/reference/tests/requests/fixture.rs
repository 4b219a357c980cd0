//! Orders by their differences from the paper's sheet S, and what is asserted of them.

use cases::{filled_set, Texts, BASES, BLANKS, FIELDS};
use reference::{check, complete, fresh, post, pretest, write};
use reference::{Broken, Class, Completed, Date, Record, Refusal, DRAFT_SIZE};

use crate::layout::{draft_of, Draft, ADVISER, HEAD_1};

/// The program's order date, at which orders are checked and completed here.
pub const ORDER_DATE: Date = Date(20_240_101);

/// A class A account of rules 7, 20 and 22.
pub const ENFORCEMENT: &str = "03212643000000014800";

/// A UIN.
pub const UIN: &str = "18201061201010000510";

/// The letter pair УВ.
pub const PAIR: &[u8] = BASES[2];

/// A field and its text.
pub type Change<'a> = (u8, &'a str);

/// S with these differences.
pub fn s(changes: &[Change<'_>]) -> Texts {
    changed(Texts::s(), changes)
}

/// S with the paper's "Blank 22, 101, 105 to 109" and these differences.
pub fn open(changes: &[Change<'_>]) -> Texts {
    changed(Texts::s().without(&BLANKS), changes)
}

fn changed(texts: Texts, changes: &[Change<'_>]) -> Texts {
    let change = |texts: Texts, &(field, text): &Change<'_>| texts.with(field, text.as_bytes());
    changes.iter().fold(texts, change)
}

/// S with the class B account of the paper's example.
pub fn class_b() -> Texts {
    s(&[(14, "044525000"), (15, ""), (17, "40503810000004000000")])
}

/// S made an ordinary payment.
pub fn class_o() -> Texts {
    let account = b"40503810000000000000";
    class_b().with(17, account).with(101, b"")
}

/// S of status 24 with a document of its own and no payer INN.
pub fn person(document: impl AsRef<[u8]>) -> Texts {
    s(&[(101, "24"), (60, "0"), (102, "0")]).with(108, document.as_ref())
}

/// S made an accepted order of this status.
pub fn of_status(status: &str) -> Texts {
    let changes: &[Change<'_>] = match status {
        "03" | "19" | "20" | "24" => &[(108, "01;1")],
        "06" | "07" | "16" | "28" | "32" => &[(107, "10000000")],
        "17" => &[(107, "10000000"), (60, "781023456779"), (102, "0")],
        "30" => &[(107, "10000000"), (60, "0"), (102, "0")],
        "31" => &[(17, ENFORCEMENT), (22, UIN)],
        "33" => &[(22, UIN)],
        _ => &[],
    };
    s(changes).with(101, status.as_bytes())
}

pub const fn broken(field: u8, rule: u8) -> Refusal {
    Refusal::Broken { field, rule }
}

/// What is asserted of an order.
pub trait Order {
    fn texts(&self) -> &Texts;

    /// What differs from S, for the message of a failed assertion.
    fn shown(&self) -> String {
        let texts = FIELDS.map(|field| (field, self.texts().get(field)));
        let differing = texts
            .iter()
            .filter(|(field, text)| *text != Texts::s().get(*field));
        let shown = differing.map(|(field, text)| format!("{field}={} ", text.escape_ascii()));
        shown.collect()
    }

    fn check(&self) -> Result<Class, Refusal> {
        check(&self.texts().sheet(), ORDER_DATE, Record::GIVEN)
    }

    #[track_caller]
    fn of_class(&self, class: Class) {
        assert_eq!(self.check(), Ok(class), "{}", self.shown());
    }

    #[track_caller]
    fn accepted(&self) {
        self.of_class(Class::A);
    }

    #[track_caller]
    fn broken(&self, field: u8, rule: u8) {
        assert_eq!(self.check(), Err(broken(field, rule)), "{}", self.shown());
    }

    /// A message for each field that is not blank.
    fn written(&self) -> Vec<Vec<u8>> {
        let texts = FIELDS.map(|field| (field, self.texts().get(field)));
        let given = texts.iter().filter(|(_, text)| !text.is_empty());
        given.map(|(field, text)| message(*field, text)).collect()
    }

    /// The draft of these messages, and the one with its blank fields given too.
    fn drafts(&self) -> [Draft; 2] {
        let mut posted = [0; DRAFT_SIZE];
        fresh(&mut posted).unwrap();
        for message in self.written() {
            post(&mut posted, &message).unwrap();
        }
        [posted, draft_of(self.texts(), |_| 1)]
    }

    /// The test ahead of completion names this field and rule, or says none.
    #[track_caller]
    fn names(&self, named: Option<(u8, u8)>) {
        let named = named.map(|(field, rule)| Broken { field, rule });
        for draft in self.drafts() {
            assert_eq!(pretest(&draft), Ok(named), "{}", self.shown());
        }
    }

    /// Completes to the filling, at this place.
    #[track_caller]
    fn completes_to(&self, filling: &Texts, count: u32) {
        let set = filled_set(self.texts());
        let ones = set.count_ones();
        for draft in self.drafts() {
            let mut sheet = [0xFF; 390];
            let completed = complete(&draft, &mut sheet, ORDER_DATE, Record::GIVEN);
            assert_eq!(completed, Ok(Completed { count, set, ones }));
            assert_eq!(sheet, filling.sheet());
        }
        assert!(filling.check().is_ok());
    }

    /// Has no filling that keeps the rules, among so many.
    #[track_caller]
    fn cannot_be_completed(&self, count: u32) {
        for draft in self.drafts() {
            let mut sheet = [0xFF; 390];
            let refused = Err(Refusal::NoFilling { count });
            let completed = complete(&draft, &mut sheet, ORDER_DATE, Record::GIVEN);
            assert_eq!(completed, refused, "{}", self.shown());
            assert_eq!(sheet, [0xFF; 390]);
        }
    }
}

impl Order for Texts {
    fn texts(&self) -> &Texts {
        self
    }
}

/// A message of version 1 and revision 1.
fn message(field: u8, text: &[u8]) -> Vec<u8> {
    let mut message = vec![0; HEAD_1 + text.len()];
    let written = write(1, ADVISER, field, 1, text, &mut message);
    assert_eq!(written, Ok(message.len()));
    message
}

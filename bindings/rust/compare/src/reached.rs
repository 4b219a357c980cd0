//! What the cases reached.

use std::collections::BTreeMap;
use std::fmt;

use cases::{Charge, Dates, Parting, Pooling, Queue, Sharing};
use cases::{Given, DRAFT_SLOT_SIZE, FIELDS, PARTY_PLACE};
use cases::{ALL_STATUSES, BASES, CLASS_A, CLASS_B, PAYMENT_PLACES, SHARE_PLACES};
use kieselbrot::{BrokenRules, Class, Completed, Message, Paid, Part, Posted, Quickened, Refusal};

use crate::broken::{self, Broke};
use crate::charges::{self, Charged};
use crate::dates::{self, Dated};
use crate::lines::{self, Lined};
use crate::origins::{self, Origin};
use crate::parties::{self, Holder, Partied};
use crate::parts::{self, Parted};
use crate::pools::{self, Pooled};
use crate::pretest::{Tested, NAMED};
use crate::queues::{self, Queued};
use crate::quick::{self, Skipped};
use crate::shares::{self, Shared};
use crate::taken::{self, Count, Taken, Way};

/// How often each thing was reached. What a thing is called is part of the
/// report: "check 8", "rule 27", "status 04 in class A".
#[derive(Clone, Debug, Default)]
pub struct Reached {
    /// Calls compared.
    pub calls: u64,
    answers: BTreeMap<(&'static str, u8), u64>,
    rules: BTreeMap<(&'static str, u8, u8), u64>,
    standings: [u64; 3],
    accepted: BTreeMap<(Class, Accepted), u64>,
    counts: BTreeMap<usize, u64>,
    hopeless: BTreeMap<usize, u64>,
    sets: BTreeMap<u16, u64>,
    pensions: BTreeMap<(Side, bool), u64>,
    letters: BTreeMap<(u8, Letters, bool), u64>,
    inns: BTreeMap<(u8, usize, Inn), u64>,
    codes: BTreeMap<(Caught, u8), u64>,
    dates: BTreeMap<Dated, u64>,
    named: BTreeMap<(u8, u8), u64>,
    unnamed: BTreeMap<u8, u64>,
    skipped: BTreeMap<Skipped, u64>,
    taken: BTreeMap<Taken, u64>,
    lines: BTreeMap<Lined, u64>,
    charges: BTreeMap<Charged, u64>,
    parts: BTreeMap<Parted, u64>,
    shares: BTreeMap<Shared, u64>,
    pools: BTreeMap<Pooled, u64>,
    queues: BTreeMap<Queued, u64>,
    parties: BTreeMap<Partied, u64>,
    party_bytes: BTreeMap<(Holder, u8), u64>,
    broken: BTreeMap<Broke, u64>,
    origins: BTreeMap<Origin, u64>,
}

/// What the first nine of a pension number's eleven digits are to rule 35.
#[derive(Clone, Copy, Debug, PartialEq, Eq, PartialOrd, Ord)]
enum Side {
    Below,
    AtTheBound,
    JustAbove,
    Leaves0,
    Leaves100,
    Above,
}

const SIDES: [Side; 6] = [
    Side::Below,
    Side::AtTheBound,
    Side::JustAbove,
    Side::Leaves0,
    Side::Leaves100,
    Side::Above,
];

/// Which of places 5 and 6 of a KPP have a letter, or what stands beside the ranges there.
#[derive(Clone, Copy, Debug, PartialEq, Eq, PartialOrd, Ord)]
enum Letters {
    Fifth,
    Sixth,
    Both,
    Beside,
    Elsewhere,
}

const LETTERS: [(Letters, bool); 5] = [
    (Letters::Fifth, true),
    (Letters::Sixth, true),
    (Letters::Both, true),
    (Letters::Beside, false),
    (Letters::Elsewhere, false),
];

/// What the check digits of 10 or 12 digits are: right, one of them by a remainder of 10; the one at this place alone wrong; right
/// behind 00.
#[derive(Clone, Copy, Debug, PartialEq, Eq, PartialOrd, Ord)]
enum Inn {
    Right,
    Leaves10(usize),
    Off(usize),
    Behind00,
}

/// The fields that have an INN, how many digits, and what must be reached of them.
const INNS: [(u8, usize, &[Inn]); 3] = [(60, 10, &INN_10), (61, 10, &INN_10), (60, 12, &INN_12)];

const INN_10: [Inn; 4] = [Inn::Right, Inn::Leaves10(10), Inn::Off(10), Inn::Behind00];

const INN_12: [Inn; 6] = [
    Inn::Right,
    Inn::Leaves10(11),
    Inn::Leaves10(12),
    Inn::Off(11),
    Inn::Off(12),
    Inn::Behind00,
];

/// What a sheet has that rule 21 or 22 is named of: a status of rule 21 or another, 17 of rule 22 or another, "0" in 22 or another text.
#[derive(Clone, Copy, Debug, PartialEq, Eq, PartialOrd, Ord)]
enum Caught {
    /// Both rules are broken.
    ByBoth,
    /// Rule 21 alone: 22 is not "0".
    OtherCode,
    /// Rule 21 alone: 17 is another account.
    OtherAccount,
    /// Rule 22 alone: another status.
    OtherStatus,
}

const CAUGHT: [(Caught, u8); 4] = [
    (Caught::ByBoth, 22),
    (Caught::OtherCode, 21),
    (Caught::OtherAccount, 21),
    (Caught::OtherStatus, 22),
];

/// What an accepted sheet had: a listed text of a field, by its place in the list.
#[derive(Clone, Copy, Debug, PartialEq, Eq, PartialOrd, Ord)]
enum Accepted {
    Class,
    Status(usize),
    Basis(usize),
    Account(usize),
}

/// The numbers that each function returns.
const ANSWERS: [(&str, &[u8]); 19] = [
    ("check", &[0, 1, 12, 8]),
    ("broken_rules", &[0, 1, 12]),
    ("read", &[0, 2, 3, 13, 4, 5]),
    ("write", &[0, 2, 3, 13, 4, 5, 7]),
    ("fresh", &[0, 1]),
    ("post", &[0, 1, 2, 3, 13, 4, 5, 6]),
    ("copy", &[0, 1, 7]),
    ("pretest", &[0, 1, 8, 9]),
    ("entry", &[0, 12, 4]),
    ("complete", &[0, 1, 7, 12, 8, 9, 10]),
    ("quick", &[0, 1, 7, 12, 8, 9, 10]),
    ("take_up", &[0, 1, 7, 20]),
    ("write_lines", &[0, 1, 12, 8, 11, 7]),
    ("read_lines", &[0, 7, 11]),
    ("charge", &[0, 14]),
    ("part", &[0, 15]),
    ("shares", &[0, 15]),
    ("pool", &[0, 7, 16, 17]),
    ("leave", &[0, 18, 19]),
];

/// The field that each rule names; rule 6 names twelve.
const FIELD_OF_RULE: [u8; 35] = [
    14, 15, 17, 101, 17, 0, 22, 60, 61, 101, 102, 103, 104, 105, 106, 107, 108, 109, 17, 17, 22,
    22, 60, 60, 108, 108, 102, 104, 106, 107, 109, 108, 108, 109, 108,
];

/// The fields that rule 6 names.
const FIELDS_OF_RULE_6: [u8; 12] = [22, 60, 61, 101, 102, 103, 104, 105, 106, 107, 108, 109];

/// Every count that a completion can return with a sheet: those that all
/// combinations of forms give with the eight lists.
const COUNTS: [usize; 46] = [
    1, 2, 3, 4, 5, 6, 7, 9, 10, 11, 12, 13, 17, 19, 20, 21, 22, 23, 24, 25, 37, 39, 40, 41, 43, 44,
    49, 50, 61, 62, 73, 97, 100, 109, 110, 121, 122, 124, 145, 193, 217, 220, 241, 244, 433, 481,
];

/// Every count of all fillings: what the entries for 106, 108 and 109 make, and where 101
/// is blank as many times that as a list has statuses.
fn all_fillings() -> impl Iterator<Item = usize> {
    let others = [1, 2, 4, 12, 24, 48];
    let lists = [1, 20, 21, 22, 23];
    lists
        .into_iter()
        .flat_map(move |statuses| others.map(|count| statuses * count))
}

impl Reached {
    /// An answer of a function.
    pub fn answer<T>(&mut self, function: &'static str, answer: Result<T, Refusal>) {
        self.calls += 1;
        let refusal = answer.err();
        let number = refusal.map_or(0, |refusal| refusal.number());
        *self.answers.entry((function, number)).or_default() += 1;
        if let Some(Refusal::Broken { field, rule }) = refusal {
            *self.rules.entry((function, rule, field)).or_default() += 1;
        }
    }

    /// A verdict.
    pub fn check(&mut self, sheet: &[u8], dates: Dates, answer: Result<Class, Refusal>) {
        self.answer("check", answer);
        self.dates(dates::checked(sheet, dates, answer));
        self.pension(sheet, answer);
        self.letters(sheet, answer);
        self.inn(sheet, answer);
        self.code(sheet, answer);
        let Ok(class) = answer else { return };
        self.accept(class, Accepted::Class);
        if class != Class::O {
            self.accept_texts(class, sheet);
        }
    }

    /// All broken rules.
    pub fn broken_rules(&mut self, answer: Result<BrokenRules, Refusal>) {
        self.answer("broken_rules", answer);
        for what in broken::reached(answer) {
            *self.broken.entry(what).or_default() += 1;
        }
    }

    /// Which message of an input each slot holds.
    pub fn origins(&mut self, input: &[u8], answer: &[u64; FIELDS.len()]) {
        self.calls += 1;
        for what in origins::reached(input, answer) {
            *self.origins.entry(what).or_default() += 1;
        }
    }

    /// A budget payment whose last rule is 35, with eleven digits behind `14;`.
    fn pension(&mut self, sheet: &[u8], answer: Result<Class, Refusal>) {
        let kept = match answer {
            Ok(Class::A | Class::B) => true,
            Err(Refusal::Broken { rule: 35, .. }) => false,
            _ => return,
        };
        let Some(digits) = text_of(sheet, 108).strip_prefix(b"14;") else {
            return;
        };
        if digits.len() != 11 || !digits.iter().all(u8::is_ascii_digit) {
            return;
        }
        let nine = &digits[..9];
        let number = nine
            .iter()
            .fold(0, |number, digit| number * 10 + u32::from(digit - b'0'));
        let side = match (number, cases::snils_remainder(nine)) {
            (cases::SNILS_BOUND, _) => Side::AtTheBound,
            (0..cases::SNILS_BOUND, _) => Side::Below,
            (1_001_999, _) => Side::JustAbove,
            (_, 0) => Side::Leaves0,
            (_, 100) => Side::Leaves100,
            _ => Side::Above,
        };
        *self.pensions.entry((side, kept)).or_default() += 1;
    }

    /// A KPP of nine places with letters, or what stands beside digits and letters, that was kept or named.
    fn letters(&mut self, sheet: &[u8], answer: Result<Class, Refusal>) {
        for field in [102, 103] {
            let kept = match answer {
                Ok(Class::A | Class::B) => true,
                Err(Refusal::Broken {
                    field: named,
                    rule: 11 | 12,
                }) if named == field => false,
                _ => continue,
            };
            let &[a, b, c, d, fifth, sixth, e, f, g] = text_of(sheet, field) else {
                continue;
            };
            let letter = |byte: u8| byte.is_ascii_uppercase();
            let beside = |byte: u8| b"/:@[".contains(&byte);
            let what = if [a, b, c, d, e, f, g].into_iter().any(letter) {
                Letters::Elsewhere
            } else if beside(fifth) || beside(sixth) {
                Letters::Beside
            } else {
                match (letter(fifth), letter(sixth)) {
                    (true, true) => Letters::Both,
                    (true, false) => Letters::Fifth,
                    (false, true) => Letters::Sixth,
                    (false, false) => continue,
                }
            };
            *self.letters.entry((field, what, kept)).or_default() += 1;
        }
    }

    /// 10 or 12 digits in 60 or 61 that were kept, or named by rule 8 or 9.
    fn inn(&mut self, sheet: &[u8], answer: Result<Class, Refusal>) {
        for field in [60, 61] {
            let kept = match answer {
                Ok(Class::A | Class::B) => true,
                Err(Refusal::Broken {
                    field: named,
                    rule: 8 | 9,
                }) if named == field => false,
                _ => continue,
            };
            let text = text_of(sheet, field);
            if let Some(what) = check_digits(text).filter(|what| what.kept() == kept) {
                *self.inns.entry((field, text.len(), what)).or_default() += 1;
            }
        }
    }

    /// A sheet that rule 21 or 22 is named of.
    fn code(&mut self, sheet: &[u8], answer: Result<Class, Refusal>) {
        let Err(Refusal::Broken {
            rule: rule @ (21 | 22),
            ..
        }) = answer
        else {
            return;
        };
        let courts = matches!(text_of(sheet, 101), b"31" | b"33");
        let account = text_of(sheet, 17).starts_with(b"03212");
        let zero = text_of(sheet, 22) == b"0";
        let what = match (courts, account, zero) {
            (true, true, true) => Caught::ByBoth,
            (true, true, false) => Caught::OtherCode,
            (true, false, _) => Caught::OtherAccount,
            (false, ..) => Caught::OtherStatus,
        };
        *self.codes.entry((what, rule)).or_default() += 1;
    }

    fn accept(&mut self, class: Class, what: Accepted) {
        *self.accepted.entry((class, what)).or_default() += 1;
    }

    fn accept_texts(&mut self, class: Class, sheet: &[u8]) {
        let text = |field| text_of(sheet, field);
        let place = |list: &[&str], text: &[u8]| {
            list.iter()
                .position(|entry| text.starts_with(entry.as_bytes()))
        };
        let accounts: &[&str] = if class == Class::A {
            &CLASS_A
        } else {
            &CLASS_B
        };
        let found = [
            place(&ALL_STATUSES, text(101)).map(Accepted::Status),
            BASES
                .iter()
                .position(|&basis| basis == text(106))
                .map(Accepted::Basis),
            place(accounts, text(17)).map(Accepted::Account),
        ];
        found
            .into_iter()
            .flatten()
            .for_each(|what| self.accept(class, what));
    }

    /// Reading a message.
    pub fn read(&mut self, message: &[u8], answer: Result<Message<'_>, Refusal>) {
        self.answer("read", answer);
        self.parties(parties::read(message, answer));
        if answer == Err(Refusal::UnknownParty) {
            self.party_byte(Holder::Message, message[3]);
        }
    }

    /// Writing a message into a buffer of this size.
    pub fn write(&mut self, message: &Message<'_>, size: usize, answer: Result<usize, Refusal>) {
        self.answer("write", answer);
        self.parties(parties::write(message, size, answer));
    }

    /// A posting, by the draft before.
    pub fn post(&mut self, draft: &[u8], message: &[u8], answer: Result<Posted, Refusal>) {
        self.answer("post", answer);
        self.malformed("post", draft, answer.err());
        self.parties(parties::post(draft, message));
        if let Ok(posted) = answer {
            self.standings[posted as usize] += 1;
        }
    }

    /// Copying a draft.
    pub fn copy(&mut self, draft: &[u8], answer: Result<(), Refusal>) {
        self.answer("copy", answer);
        self.malformed("copy", draft, answer.err());
    }

    /// What a list of readable messages ended in.
    pub fn ended(&mut self, readable: &[Given<'_>], draft: &[u8]) {
        self.parties(parties::list(readable, draft));
    }

    /// A field that this party alone gave, with messages of the other in the list.
    pub fn alone(&mut self, party: u8) {
        self.parties([Partied::Alone(party)]);
    }

    /// A draft that is malformed by a party and nothing else.
    fn malformed(&mut self, function: &'static str, draft: &[u8], refusal: Option<Refusal>) {
        if refusal != Some(Refusal::Malformed) {
            return;
        }
        for (slot, fault) in parties::malformed(draft) {
            self.parties([Partied::Malformed(function, fault)]);
            let party = draft[DRAFT_SLOT_SIZE * slot + PARTY_PLACE];
            self.party_byte(parties::holder(fault), party);
        }
    }

    fn parties(&mut self, reached: impl IntoIterator<Item = Partied>) {
        for what in reached {
            *self.parties.entry(what).or_default() += 1;
        }
    }

    fn party_byte(&mut self, holder: Holder, byte: u8) {
        *self.party_bytes.entry((holder, byte)).or_default() += 1;
    }

    /// A completion, by what the test ahead of it answered and the sheet afterwards.
    pub fn complete(
        &mut self,
        draft: &[u8],
        dates: Dates,
        tested: Tested,
        answer: Result<Completed, Refusal>,
        sheet: &[u8],
    ) {
        self.answer("complete", answer);
        self.malformed("complete", draft, answer.err());
        self.pretest(tested, answer);
        self.dates(dates::completed(draft, dates, tested, answer, sheet));
        match answer {
            Ok(Completed { count, set, .. }) => {
                *self.counts.entry(count).or_default() += 1;
                *self.sets.entry(set).or_default() += 1;
            }
            Err(Refusal::NoFilling { count }) => *self.hopeless.entry(count).or_default() += 1,
            Err(_) => {}
        }
    }

    /// A quick completion, by the sheet afterwards.
    pub fn quick(&mut self, draft: &[u8], dates: Dates, answer: Quickened, sheet: &[u8]) {
        self.answer("quick", answer.completed);
        for what in quick::reached(draft, dates, answer, sheet) {
            *self.skipped.entry(what).or_default() += 1;
        }
    }

    /// Taking up values, by the draft before.
    pub fn take_up(&mut self, draft: &[u8], sheet: &[u8], set: u16, answer: Result<(), Refusal>) {
        self.answer("take_up", answer);
        self.malformed("take_up", draft, answer.err());
        self.parties(parties::taken_up(draft, set, answer));
        for what in taken::reached(draft, sheet, set, answer) {
            *self.taken.entry(what).or_default() += 1;
        }
    }

    /// A completion at these dates after values of this set were posted in this way.
    pub fn again(&mut self, way: Way, dates: Dates, set: u16, smaller: bool) {
        if set == 0 {
            return;
        }
        let count = match smaller {
            true => Count::Smaller,
            false => Count::Same,
        };
        for what in [Taken::Again(way, dates.allowed()), Taken::Count(way, count)] {
            *self.taken.entry(what).or_default() += 1;
        }
    }

    /// Writing the lines of a sheet into a buffer of this size.
    pub fn write_lines(
        &mut self,
        sheet: &[u8],
        dates: Dates,
        size: usize,
        answer: Result<usize, Refusal>,
    ) {
        self.answer("write_lines", answer);
        self.lines(lines::written(sheet, dates, size, answer));
    }

    /// Reading a block.
    pub fn read_lines(&mut self, block: &[u8], answer: Result<(), Refusal>) {
        self.answer("read_lines", answer);
        self.lines(lines::read(block, answer));
    }

    fn lines(&mut self, reached: Vec<Lined>) {
        for what in reached {
            *self.lines.entry(what).or_default() += 1;
        }
    }

    /// What the test of a draft named, or where it named nothing what its
    /// completion answered.
    fn pretest(&mut self, tested: Tested, completed: Result<Completed, Refusal>) {
        match tested {
            Ok(Some(broken)) => {
                let reached = self.named.entry((broken.rule, broken.field));
                *reached.or_default() += 1;
            }
            Ok(None) => {
                let number = completed.err().map_or(0, |refusal| refusal.number());
                *self.unnamed.entry(number).or_default() += 1;
            }
            Err(_) => {}
        }
    }

    /// The dates of a check or a completion.
    fn dates(&mut self, reached: Vec<Dated>) {
        for what in reached {
            *self.dates.entry(what).or_default() += 1;
        }
    }

    /// A charge.
    pub fn charge(&mut self, charge: &Charge, answer: Result<u64, Refusal>) {
        self.answer("charge", answer);
        for what in charges::reached(charge, answer) {
            *self.charges.entry(what).or_default() += 1;
        }
    }

    /// A part of a year.
    pub fn part(&mut self, parting: &Parting, answer: Result<Part, Refusal>) {
        self.answer("part", answer);
        for what in parts::reached(parting, answer) {
            *self.parts.entry(what).or_default() += 1;
        }
    }

    /// Shares, in places that held something before.
    pub fn shares(
        &mut self,
        sharing: &Sharing,
        before: &[u64; SHARE_PLACES],
        answer: Result<[u64; SHARE_PLACES], Refusal>,
    ) {
        self.answer("shares", answer);
        for what in shares::reached(sharing, before, answer) {
            *self.shares.entry(what).or_default() += 1;
        }
    }

    /// Pooling a register, by what the output held before and holds afterwards.
    pub fn pool(
        &mut self,
        pooling: &Pooling,
        before: &[u8],
        after: &[u8],
        answer: Result<usize, Refusal>,
    ) {
        self.answer("pool", answer);
        for what in pools::reached(pooling, before, after, answer) {
            *self.pools.entry(what).or_default() += 1;
        }
    }

    /// Which payments leave first, in places that held something before.
    pub fn leave(
        &mut self,
        queue: &Queue,
        before: &[u32; PAYMENT_PLACES],
        answer: Result<Paid, Refusal>,
    ) {
        self.answer("leave", answer);
        for what in queues::reached(queue, before, answer) {
            *self.queues.entry(what).or_default() += 1;
        }
    }

    /// Adds what another comparison reached.
    pub fn add(&mut self, other: &Self) {
        self.calls += other.calls;
        add(&mut self.answers, &other.answers);
        add(&mut self.rules, &other.rules);
        add(&mut self.accepted, &other.accepted);
        add(&mut self.counts, &other.counts);
        add(&mut self.hopeless, &other.hopeless);
        add(&mut self.sets, &other.sets);
        add(&mut self.pensions, &other.pensions);
        add(&mut self.letters, &other.letters);
        add(&mut self.inns, &other.inns);
        add(&mut self.codes, &other.codes);
        add(&mut self.dates, &other.dates);
        add(&mut self.named, &other.named);
        add(&mut self.unnamed, &other.unnamed);
        add(&mut self.skipped, &other.skipped);
        add(&mut self.taken, &other.taken);
        add(&mut self.lines, &other.lines);
        add(&mut self.charges, &other.charges);
        add(&mut self.parts, &other.parts);
        add(&mut self.shares, &other.shares);
        add(&mut self.pools, &other.pools);
        add(&mut self.queues, &other.queues);
        add(&mut self.parties, &other.parties);
        add(&mut self.party_bytes, &other.party_bytes);
        add(&mut self.broken, &other.broken);
        add(&mut self.origins, &other.origins);
        for (sum, more) in self.standings.iter_mut().zip(other.standings) {
            *sum += more;
        }
    }

    /// Everything that must be reached, by name, and how often it was.
    fn list(&self) -> Vec<(String, u64)> {
        let mut list = Vec::new();
        for (function, numbers) in ANSWERS {
            for &number in numbers {
                let reached = get(&self.answers, (function, number));
                list.push((format!("{function} {number}"), reached));
            }
        }
        self.list_rules(&mut list);
        for (standing, reached) in ["newer", "same", "older"].iter().zip(self.standings) {
            list.push(((*standing).into(), reached));
        }
        self.list_accepted(&mut list);
        for field in [102, 103] {
            for (what, kept) in LETTERS {
                let reached = get(&self.letters, (field, what, kept));
                list.push((format!("{field} with letters: {what:?}"), reached));
            }
        }
        for (field, width, whats) in INNS {
            for &what in whats {
                let reached = get(&self.inns, (field, width, what));
                list.push((format!("{field} of {width} digits: {what:?}"), reached));
            }
        }
        for (what, rule) in CAUGHT {
            let reached = get(&self.codes, (what, rule));
            list.push((format!("rule {rule}: {what:?}"), reached));
        }
        for side in SIDES {
            let reached = |kept| get(&self.pensions, (side, kept));
            list.push((format!("a pension number: {side:?}, kept"), reached(true)));
            // At and below the bound every pension number of eleven digits keeps rule 35.
            if side > Side::AtTheBound {
                list.push((
                    format!("a pension number: {side:?}, broken"),
                    reached(false),
                ));
            }
        }
        for count in COUNTS {
            list.push((format!("count {count}"), get(&self.counts, count)));
        }
        for count in all_fillings() {
            list.push((format!("none of {count}"), get(&self.hopeless, count)));
        }
        let sets = self.sets.len() as u64;
        list.push((format!("{sets} of 1024 sets of blanks"), sets / 1024));
        for what in dates::all() {
            list.push((format!("dates: {what}"), get(&self.dates, what)));
        }
        for what in quick::all() {
            list.push((format!("skipped: {what}"), get(&self.skipped, what)));
        }
        for what in taken::all() {
            list.push((format!("taken up: {what}"), get(&self.taken, what)));
        }
        for what in lines::all() {
            list.push((format!("lines: {what}"), get(&self.lines, what)));
        }
        for what in charges::all() {
            list.push((format!("a charge: {what}"), get(&self.charges, what)));
        }
        for what in parts::all() {
            list.push((format!("a part: {what}"), get(&self.parts, what)));
        }
        for what in shares::all() {
            list.push((format!("shares: {what}"), get(&self.shares, what)));
        }
        for what in pools::all() {
            list.push((format!("pooling: {what}"), get(&self.pools, what)));
        }
        for what in broken::all() {
            list.push((format!("broken: {what}"), get(&self.broken, what)));
        }
        for what in origins::all() {
            list.push((format!("origins: {what}"), get(&self.origins, what)));
        }
        for what in queues::all() {
            list.push((format!("payments: {what}"), get(&self.queues, what)));
        }
        for what in parties::all() {
            list.push((format!("parties: {what}"), get(&self.parties, what)));
        }
        for (holder, all) in Holder::ALL {
            let bytes = self.party_bytes.keys().filter(|(of, _)| *of == holder);
            let count = bytes.count() as u64;
            let name = format!("{count} of {all} refused party bytes, {holder:?}");
            list.push((name, count / all));
        }
        list
    }

    fn list_rules(&self, list: &mut Vec<(String, u64)>) {
        let rule = |function, rule, field| get(&self.rules, (function, rule, field));
        for (number, field) in (1..).zip(FIELD_OF_RULE).filter(|&(number, _)| number != 6) {
            let name = format!("rule {number} of {field}");
            list.push((name, rule("check", number, field)));
        }
        for field in FIELDS_OF_RULE_6 {
            list.push((format!("rule 6 of {field}"), rule("check", 6, field)));
        }
        for (function, place) in [("complete", "completion"), ("pretest", "the pretest")] {
            for (number, field) in (1..).zip(&FIELD_OF_RULE[..3]) {
                let name = format!("rule {number} of {field} in {place}");
                list.push((name, rule(function, number, *field)));
            }
        }
        for named in NAMED {
            let (number, field) = (named.rule, named.field);
            let name = format!("rule {number} of {field} named ahead");
            list.push((name, get(&self.named, (number, field))));
        }
        for number in [0, 10] {
            let name = format!("none named ahead, complete {number}");
            list.push((name, get(&self.unnamed, number)));
        }
    }

    fn list_accepted(&self, list: &mut Vec<(String, u64)>) {
        for class in [Class::A, Class::B, Class::O] {
            let reached = get(&self.accepted, (class, Accepted::Class));
            list.push((format!("class {class:?}"), reached));
        }
        for (class, accounts) in [(Class::A, &CLASS_A[..]), (Class::B, &CLASS_B)] {
            let mut add = |name: String, what| {
                let name = format!("{name} in class {class:?}");
                list.push((name, get(&self.accepted, (class, what))));
            };
            for (place, status) in ALL_STATUSES.iter().enumerate() {
                add(format!("status {status}"), Accepted::Status(place));
            }
            for place in 0..BASES.len() {
                add(format!("basis {}", place + 1), Accepted::Basis(place));
            }
            for (place, account) in accounts.iter().enumerate() {
                add(format!("account {account}"), Accepted::Account(place));
            }
        }
    }

    /// What was never reached, and answers that should not have been.
    #[must_use]
    pub fn failings(&self) -> Vec<String> {
        let never = self.list().into_iter().filter(|&(_, reached)| reached == 0);
        let strange = self
            .counts
            .keys()
            .filter(|count| !COUNTS.contains(count))
            .map(|count| format!("count {count} is not in the list"));
        let listed: Vec<Skipped> = quick::all().collect();
        let strange_skips = self
            .skipped
            .keys()
            .filter(|what| !listed.contains(what))
            .map(|what| format!("skipped: {what} is not in the list"));
        never
            .map(|(name, _)| format!("never reached: {name}"))
            .chain(strange)
            .chain(strange_skips)
            .collect()
    }
}

impl Inn {
    /// Whether rules 8 and 9 keep it.
    const fn kept(self) -> bool {
        matches!(self, Self::Right | Self::Leaves10(_))
    }
}

/// What the check digits of a text are; nothing where it is not 10 or 12 digits, or where more than one is wrong.
fn check_digits(text: &[u8]) -> Option<Inn> {
    if !matches!(text.len(), 10 | 12) || !text.iter().all(u8::is_ascii_digit) {
        return None;
    }
    let remainder = |weights: &&[u32]| cases::inn_remainder(text, weights);
    let off = |weights: &&&[u32]| u32::from(text[weights.len()] - b'0') != remainder(weights) % 10;
    let weights = cases::inn_weights(text.len());
    let mut wrong = weights.iter().filter(off);
    match (wrong.next(), wrong.next(), text.starts_with(b"00")) {
        (None, _, true) => Some(Inn::Behind00),
        (Some(weights), None, false) => Some(Inn::Off(weights.len() + 1)),
        (None, _, false) => {
            let ten = weights.iter().find(|weights| remainder(weights) == 10);
            Some(ten.map_or(Inn::Right, |weights| Inn::Leaves10(weights.len() + 1)))
        }
        _ => None,
    }
}

/// The text of a field of a well-formed sheet.
pub fn text_of(sheet: &[u8], field: u8) -> &[u8] {
    let slot = &sheet[26 * cases::slot_of(field)..];
    &slot[1..][..usize::from(slot[0])]
}

impl fmt::Display for Reached {
    fn fmt(&self, f: &mut fmt::Formatter<'_>) -> fmt::Result {
        let list = self.list();
        let width = list.iter().map(|(name, _)| name.chars().count()).max();
        let width = width.unwrap_or_default();
        for row in list.chunks(3) {
            for (name, reached) in row {
                write!(f, "{name:<width$} {reached:>9}   ")?;
            }
            writeln!(f)?;
        }
        Ok(())
    }
}

fn get<K: Ord>(map: &BTreeMap<K, u64>, key: K) -> u64 {
    map.get(&key).copied().unwrap_or_default()
}

fn add<K: Ord + Copy>(sum: &mut BTreeMap<K, u64>, more: &BTreeMap<K, u64>) {
    for (&key, &reached) in more {
        *sum.entry(key).or_default() += reached;
    }
}

//! What is measured with: for each row many inputs, all different.

use cases::{blanked, budget, damaged_draft, disturb, lines_of, message, with_forms};
use cases::{charge_in_range, parting_in_range, queue_of, register_of, sharing_of};
use cases::{message_2, PARTIES};
use cases::{Account, Basis, Code, Date, Document, Draft, Forms, Payer, Random, Sheet, Texts};
use cases::{Charge, Parting, Pooling, Sharing};
use cases::{BLANKS, FIELDS};

use crate::dates::GIVEN;

/// How many inputs a row has.
const INPUTS: usize = 256;

/// How many drafts the book has.
const BOOK: usize = 100_000;

/// The fields that vary the count of fillings, quickest last.
const VARYING: [u8; 4] = [101, 106, 108, 109];

/// The same numbers in every run.
pub fn random() -> Random {
    Random::new(107)
}

/// An order with the forms of document 01's sheet S, and other digits.
fn like_s(random: &mut Random) -> Texts {
    with_forms(random, &FORMS_OF_S)
}

const FORMS_OF_S: Forms = Forms {
    account: Account::Treasury,
    code: Code::Zero,
    payer: Payer::Inn10,
    status: Some("01"),
    kpp: true,
    kbk: true,
    oktmo: false,
    basis: Some(Basis::Zero),
    office: false,
    document: Some(Document::Zero),
    date: Some(Date::Zero),
};

fn many<T>(random: &mut Random, one: impl Fn(&mut Random) -> T) -> Vec<T> {
    (0..INPUTS).map(|_| one(random)).collect()
}

/// Accepted sheets like S.
pub fn accepted(random: &mut Random) -> Vec<Sheet> {
    many(random, |random| like_s(random).sheet())
}

/// Sheets that break rule 34 alone.
pub fn late(random: &mut Random) -> Vec<Sheet> {
    many(random, |random| {
        let forms = Forms {
            status: Some("06"),
            office: true,
            basis: Some(Basis::DoubleZero),
            document: Some(Document::DoubleZero),
            ..FORMS_OF_S
        };
        with_forms(random, &forms).sheet()
    })
}

/// Sheets of all classes, some with texts changed.
pub fn mixed(random: &mut Random) -> Vec<Sheet> {
    many(random, |random| {
        let mut texts = cases::accepted(random);
        (0..random.below(3)).for_each(|_| disturb(random, &mut texts));
        texts.sheet()
    })
}

/// The messages of whole orders, shuffled.
pub fn messages(random: &mut Random) -> Vec<Vec<Vec<u8>>> {
    many(random, |random| {
        let texts = budget(random);
        let mut list = FIELDS.map(|field| message(field, 1, &texts.get(field)));
        random.shuffle(&mut list);
        list.to_vec()
    })
}

/// Messages of version 2, one of each party for every field, with equal revisions and other
/// texts, shuffled.
pub fn messages_of_both(random: &mut Random) -> Vec<Vec<Vec<u8>>> {
    many(random, |random| {
        let mut list = Vec::new();
        for party in PARTIES {
            let texts = budget(random);
            list.extend(FIELDS.map(|field| message_2(party, field, 1, &texts.get(field))));
        }
        random.shuffle(&mut list);
        list
    })
}

fn draft(texts: &Texts) -> Draft {
    texts.draft(|_| 1)
}

/// The drafts that are tested and completed.
pub struct Drafts {
    /// Nothing blank.
    pub full: Vec<Draft>,
    /// Completed at count 97.
    pub count_97: Vec<Draft>,
    /// Completed at count 433.
    pub count_433: Vec<Draft>,
    /// None of 1,056 fillings, by rule 22.
    pub hopeless: Vec<Draft>,
    /// Nothing blank, and hopeless from the start, in turn.
    pub full_or_hopeless: Vec<Draft>,
    /// None of 1,056 fillings, by rule 28.
    pub hopeless_from_the_start: Vec<Draft>,
    /// None of 1,056 fillings, and not caught by the test.
    pub uncaught: Vec<Draft>,
}

/// All of them; those that came later have random numbers of their own, so that the others
/// stay as they were.
pub fn drafts(random: &mut Random) -> Drafts {
    let other = &mut self::random();
    Drafts {
        full: full(random),
        count_97: count_97(random),
        hopeless: hopeless(random),
        full_or_hopeless: full_or_hopeless(other),
        hopeless_from_the_start: hopeless_from_the_start(other),
        uncaught: uncaught(other),
        count_433: count_433(other),
    }
}

/// Drafts with nothing blank, to be accepted.
pub fn full(random: &mut Random) -> Vec<Draft> {
    many(random, |random| draft(&like_s(random)))
}

/// Drafts that status 04 completes, at count 97.
pub fn count_97(random: &mut Random) -> Vec<Draft> {
    many(random, |random| {
        let texts = like_s(random).with(60, b"0").with(102, b"0");
        draft(&texts.without(&BLANKS))
    })
}

/// A draft, and what is proposed to it.
pub struct Proposal {
    /// The draft.
    pub draft: Draft,
    /// The proposed sheet.
    pub sheet: Sheet,
    /// The slots that are filled in it.
    pub set: u16,
}

/// Drafts that are completed at count 97, with seven values proposed.
pub fn proposals(random: &mut Random) -> Vec<Proposal> {
    let proposal = |draft: Draft| {
        let mut sheet = [0; 390];
        let completed = GIVEN.complete_by_second(&draft, &mut sheet);
        let set = completed.map_or(0, |completed| completed.set);
        Proposal { draft, sheet, set }
    };
    count_97(random).into_iter().map(proposal).collect()
}

/// Accepted sheets of class A, with codes of each length.
pub fn with_lines(random: &mut Random) -> Vec<Sheet> {
    many(random, |random| {
        let (account, status, code) = random.pick(&[
            (Account::Treasury, "01", Code::Zero),
            (Account::Treasury, "01", Code::Uin),
            (Account::Institution, "08", Code::Four),
            (Account::OtherA, "08", Code::Uin),
        ]);
        let forms = Forms {
            account,
            code,
            status: Some(status),
            ..FORMS_OF_S
        };
        with_forms(random, &forms).sheet()
    })
}

/// Their MT103 lines.
pub fn lines(random: &mut Random) -> Vec<Vec<u8>> {
    let sheets = with_lines(random).into_iter();
    sheets.map(|sheet| lines_of(&Texts::of(&sheet))).collect()
}

/// Drafts that status 16 completes, at count 433: no other order is completed later with
/// these statuses.
fn count_433(random: &mut Random) -> Vec<Draft> {
    let blank: Vec<u8> = BLANKS.into_iter().filter(|&field| field != 107).collect();
    many(random, |random| {
        let forms = Forms {
            payer: Payer::Zero,
            status: Some("16"),
            kpp: false,
            office: true,
            ..FORMS_OF_S
        };
        draft(&with_forms(random, &forms).without(&blank))
    })
}

/// Drafts to an account that wants a code, with none of 1,056 fillings.
pub fn hopeless(random: &mut Random) -> Vec<Draft> {
    many(random, |random| {
        draft(&hopeless_texts(random).without(&BLANKS))
    })
}

fn hopeless_texts(random: &mut Random) -> Texts {
    let forms = Forms {
        account: Account::Institution,
        status: Some("08"),
        ..FORMS_OF_S
    };
    with_forms(random, &forms)
}

/// Drafts to an account that wants a KBK, with "0" in 104: hopeless from the start,
/// with none of 1,056 fillings.
fn hopeless_from_the_start(random: &mut Random) -> Vec<Draft> {
    many(random, |random| {
        let texts = like_s(random).with(104, b"0");
        draft(&texts.without(&BLANKS))
    })
}

/// Drafts with nothing blank, to be accepted, and drafts hopeless from the start, in
/// turn.
fn full_or_hopeless(random: &mut Random) -> Vec<Draft> {
    let pairs = full(random)
        .into_iter()
        .zip(hopeless_from_the_start(random));
    let in_turn = pairs.flat_map(|(full, hopeless)| [full, hopeless]);
    in_turn.take(INPUTS).collect()
}

/// Drafts that are not caught by the test, with none of 1,056 fillings.
fn uncaught(random: &mut Random) -> Vec<Draft> {
    many(random, |random| {
        draft(&uncaught_texts(random).without(&VARYING))
    })
}

/// A KPP beside 12 digits, which rule 27 refuses; or a customs office and an account
/// that no status of the customs group goes with, which rules 19 and 30 refuse.
fn uncaught_texts(random: &mut Random) -> Texts {
    let kpp = Forms {
        payer: Payer::Inn12,
        ..FORMS_OF_S
    };
    let office = Forms {
        account: Account::OtherA,
        status: Some("08"),
        office: true,
        ..FORMS_OF_S
    };
    let forms = random.pick(&[kpp, office]);
    with_forms(random, &forms)
}

/// Hopeless drafts for each count of fillings, in rising order: from the start.
pub fn growth(random: &mut Random) -> Vec<(usize, Vec<Draft>)> {
    by_fillings(random, hopeless_texts)
}

/// The same of drafts that are not caught by the test.
pub fn uncaught_growth(random: &mut Random) -> Vec<(usize, Vec<Draft>)> {
    by_fillings(random, uncaught_texts)
}

fn by_fillings(random: &mut Random, texts: fn(&mut Random) -> Texts) -> Vec<(usize, Vec<Draft>)> {
    let mut growth: Vec<_> = (0..16)
        .map(|set: usize| {
            let blank: Vec<u8> = (0..4)
                .filter(|bit| set >> bit & 1 == 1)
                .map(|bit| VARYING[bit])
                .collect();
            let fillings = blank
                .iter()
                .map(|&field| cases::list(field).len())
                .product();
            let one = |random: &mut Random| draft(&texts(random).without(&blank));
            (fillings, many(random, one))
        })
        .collect();
    growth.sort_by_key(|&(fillings, _)| fillings);
    growth.dedup_by_key(|&mut (fillings, _)| fillings);
    growth
}

/// Arguments of charges, in range, with half kopecks and limits near the charge among
/// them.
pub fn charges(random: &mut Random) -> Vec<Charge> {
    many(random, charge_in_range)
}

/// Arguments of parts of a year, in range.
pub fn parts(random: &mut Random) -> Vec<Parting> {
    many(random, parting_in_range)
}

/// Arguments of shares among 12 periods, in range.
pub fn shares(random: &mut Random) -> Vec<Sharing> {
    many(random, |random| sharing_of(random, 12))
}

/// Registers of so many lines, which pool to so many.
pub fn registers(random: &mut Random, lines: usize, inns: usize) -> Vec<Pooling> {
    many(random, |random| {
        Pooling::new(&register_of(random, lines, inns))
    })
}

/// A balance, and the payments that wait, for each in its own type.
pub struct Waiting {
    /// In kopecks.
    pub balance: u64,
    /// For the library.
    pub library: Vec<kieselbrot::Payment>,
    /// For the second implementation.
    pub reference: Vec<reference::Payment>,
}

/// 64 payments each, in range, with a balance that covers some of them.
pub fn payments(random: &mut Random) -> Vec<Waiting> {
    many(random, |random| {
        let queue = queue_of(random, cases::PAYMENT_PLACES);
        let payments = queue.payments().unwrap_or_default();
        let library = |payment: &cases::Payment| kieselbrot::Payment {
            priority: payment.priority,
            arrival: payment.arrival,
            amount: payment.amount,
        };
        let reference = |payment: &cases::Payment| reference::Payment {
            priority: payment.priority.into(),
            arrival: payment.arrival,
            amount: payment.amount,
        };
        Waiting {
            balance: queue.balance,
            library: payments.iter().map(library).collect(),
            reference: payments.iter().map(reference).collect(),
        }
    })
}

/// A book of mixed drafts: whole, with blanks, with mistakes, some damaged.
pub fn book(random: &mut Random) -> Vec<Draft> {
    (0..BOOK).map(|_| entry(random)).collect()
}

/// A book of which every other draft is hopeless from the start.
pub fn half_hopeless_book(random: &mut Random) -> Vec<Draft> {
    let pair = |_| [entry(random), hopeless_entry(random)];
    (0..BOOK / 2).flat_map(pair).collect()
}

/// Texts that one of the rules that the pretest names refuses, whatever else an order
/// has.
const MISTAKES: [(u8, &[u8]); 9] = [
    (22, b"00"),
    (60, b"7701569744"),
    (61, b""),
    (61, b"6730054025"),
    (102, b"00"),
    (103, b"0"),
    (104, b"00"),
    (105, b"00"),
    (107, b"00"),
];

fn hopeless_entry(random: &mut Random) -> Draft {
    let texts = blanked(budget(random), random.below(1024));
    let (field, text) = random.pick(&MISTAKES);
    draft(&texts.with(field, text))
}

fn entry(random: &mut Random) -> Draft {
    let mut texts = cases::accepted(random);
    if random.percent(60) {
        texts = blanked(texts, random.below(1024));
    }
    if random.percent(20) {
        disturb(random, &mut texts);
    }
    let draft = draft(&texts);
    match random.percent(3) {
        true => damaged_draft(random, draft),
        false => draft,
    }
}

#[cfg(test)]
mod tests {
    use super::*;
    use crate::dates::ANOTHER;
    use reference::{Broken, Refusal};

    type Answer = (Result<Option<Broken>, Refusal>, Result<u32, Refusal>);

    /// What the pretest answers, and the count of the completion: with both records.
    fn answer(draft: &Draft) -> Answer {
        let [given, another] = [GIVEN, ANOTHER].map(|dated| {
            let completed = dated.complete_by_second(draft, &mut [0; 390]);
            completed.map(|completed| completed.count)
        });
        assert_eq!(given, another);
        (reference::pretest(draft), given)
    }

    const fn named(field: u8, rule: u8) -> Answer {
        let named = Ok(Some(Broken { field, rule }));
        (named, Err(Refusal::NoFilling { count: 1056 }))
    }

    fn all(drafts: &[Draft], expected: Answer) -> bool {
        drafts.iter().all(|draft| answer(draft) == expected)
    }

    const FULL: Answer = (Ok(None), Ok(1));
    const LATE: Answer = (Ok(None), Ok(433));
    const UNCAUGHT: Answer = (Ok(None), Err(Refusal::NoFilling { count: 1056 }));

    #[test]
    fn the_drafts_are_as_the_rows_say() {
        let random = &mut random();
        assert!(all(&full(random), FULL));
        assert!(all(&count_433(random), LATE));
        assert!(all(&hopeless(random), named(22, 22)));
        assert!(all(&hopeless_from_the_start(random), named(104, 28)));
        assert!(all(&uncaught(random), UNCAUGHT));
        for pair in full_or_hopeless(random).chunks(2) {
            assert!(all(&pair[..1], FULL) && all(&pair[1..], named(104, 28)));
        }
    }

    #[test]
    fn none_of_the_growth_is_completed() {
        let random = &mut random();
        for (caught, growth) in [(true, growth(random)), (false, uncaught_growth(random))] {
            for (fillings, drafts) in growth {
                let count = fillings as u32;
                for (tested, completed) in drafts.iter().map(answer) {
                    assert_eq!(tested.map(|named| named.is_some()), Ok(caught));
                    assert_eq!(completed, Err(Refusal::NoFilling { count }));
                }
            }
        }
    }

    #[test]
    fn messages_of_both_parties_are_posted() {
        let (mut newer, mut older) = (0, 0);
        for list in messages_of_both(&mut random()) {
            assert_eq!(list.len(), 30);
            let mut draft = [0; cases::DRAFT_SIZE];
            for message in list {
                match reference::post(&mut draft, &message) {
                    Ok(reference::Posted::Newer) => newer += 1,
                    Ok(reference::Posted::Older) => older += 1,
                    other => panic!("{other:?}"),
                }
            }
            // The adviser's stand.
            let slots = draft.chunks_exact(cases::DRAFT_SLOT_SIZE);
            let mut parties = slots.map(|slot| slot[cases::PARTY_PLACE]);
            assert!(parties.all(|party| party == cases::ADVISER));
        }
        assert!(newer > older && older > 0);
    }

    #[test]
    fn seven_values_are_taken_up() {
        for proposal in proposals(&mut random()) {
            let Proposal { draft, sheet, set } = proposal;
            assert_eq!(set.count_ones(), 7);
            let mut taken = draft;
            assert_eq!(reference::take_up(&mut taken, &sheet, set), Ok(()));
            assert_ne!(taken, draft);
        }
    }

    #[test]
    fn every_block_is_written_and_read() {
        let sheets = with_lines(&mut random());
        let blocks = lines(&mut random());
        let mut lengths = Vec::new();
        for (sheet, block) in sheets.iter().zip(&blocks) {
            let mut buffer = [0; 137];
            let length = GIVEN.write_lines_by_second(sheet, &mut buffer);
            assert_eq!(length, Ok(block.len()));
            assert_eq!(buffer[..block.len()], block[..]);
            assert_eq!(reference::read_lines(block, &mut [0; 390]), Ok(()));
            lengths.push(block.len());
        }
        lengths.sort_unstable();
        lengths.dedup();
        assert_eq!(lengths, cases::LINE_LENGTHS);
    }

    #[test]
    fn every_charge_is_made() {
        for charge in charges(&mut random()) {
            let answer =
                reference::charge(charge.amount, charge.rate, charge.least, charge.greatest);
            assert!(answer.is_ok(), "{charge:?}");
        }
    }

    #[test]
    fn every_part_and_all_shares_are_made() {
        for parting in parts(&mut random()) {
            let answer = reference::part(parting.amount, parting.days, parting.year);
            assert!(answer.is_ok(), "{parting:?}");
        }
        for sharing in shares(&mut random()) {
            assert_eq!(sharing.periods.len(), 12);
            let answer = reference::shares(sharing.amount, sharing.year, &sharing.periods);
            assert!(answer.is_ok(), "{sharing:?}");
        }
    }

    #[test]
    fn every_register_is_pooled_to_as_many_lines() {
        let random = &mut random();
        for (lines, inns) in [(1, 1), (60, 20), (125, 125), (500, 500)] {
            for pooling in registers(random, lines, inns) {
                let Pooling { register, amount } = pooling;
                assert_eq!(register.len(), lines * cases::LINE_SIZE);
                let output = &mut [0; cases::POOL_SIZE];
                assert_eq!(reference::pool(&register, amount, output), Ok(inns));
            }
        }
    }

    #[test]
    fn every_64_payments_are_ordered() {
        for waiting in payments(&mut random()) {
            assert_eq!((waiting.library.len(), waiting.reference.len()), (64, 64));
            assert!(reference::leave(waiting.balance, &waiting.reference).is_ok());
        }
    }

    #[test]
    fn half_of_a_book_is_hopeless_from_the_start() {
        let random = &mut random();
        for _ in 0..1000 {
            let tested = reference::pretest(&hopeless_entry(random));
            assert!(matches!(tested, Ok(Some(_))));
        }
    }
}

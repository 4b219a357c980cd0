//! Cases that are gone through one and all.

use cases::{blanked, with_forms, Account, Basis, Code, Date, Document, Forms, Payer};
use cases::{budget_at, class_a, is_day, lines_of, message, sheets, Random, Sheet, Text, Texts};
use cases::{inn_of, Inn, Line, Pooling, LINES_MAX, LINE_SIZE, ORDER_MAX, POOL_SIZE};
use cases::{slot_of, Dates, ALL_STATUSES, BLANKS, FIELDS, FILLABLE, LISTS, ORDER_DATE_MIN};
use cases::{Charge, Parting, Payment, Queue, Sharing};
use cases::{BALANCE_MAX, KOPECKS_MAX, PAYMENT_PLACES, RATE_MAX, SHARE_PLACES, YEARS};
use cases::{DRAFT_SIZE, DRAFT_SLOT_SIZE, LENGTH_PLACE, PARTIES};
use kieselbrot::{Class, Refusal};

use crate::blocks;
use crate::comparison::{same, Comparison, Difference, Lent};
use crate::fillings;
use crate::library::Library;
use crate::pretest::VARYING;
use crate::proposals::Proposal;

type Outcome = Result<(), Difference>;

/// The table `sheets.txt` against its verdicts, which are at the program's dates;
/// completed as it is, and with the fields blank that vary the count of fillings, at these
/// dates and with one of the eight lists.
pub fn table<L: Library>(comparison: &mut Comparison<'_, L>) -> Outcome {
    for (case, list) in sheets().into_iter().zip(LISTS.into_iter().cycle()) {
        let answer = match check_and_complete(comparison, &case.texts, Dates::PROGRAM)? {
            Ok(class) => format!("ok {class:?}"),
            Err(refusal) => refusal.numbers().to_string(),
        };
        same("check", answer, case.verdict, || case.name.to_owned())?;
        let open = case.texts.without(&VARYING);
        by_list(comparison, &open, Dates::PROGRAM)?;
        by_list(comparison, &open, Dates::PROGRAM.allowing(list))?;
    }
    Ok(())
}

/// Revision 1 where there is a text.
fn first_revision(text: Text) -> u32 {
    u32::from(!text.is_empty())
}

/// Completes by the list of all fillings.
fn by_list<L: Library>(comparison: &mut Comparison<'_, L>, texts: &Texts, dates: Dates) -> Outcome {
    fillings::complete(comparison, texts, &texts.draft(first_revision), dates)
}

/// Every set of blanks, on orders of which one is accepted with all of them, with any of
/// the eight lists. A part has 64 of the 1024 sets.
pub fn blanks<L: Library>(
    comparison: &mut Comparison<'_, L>,
    random: &mut Random,
    part: usize,
) -> Outcome {
    let fillable = Texts::s()
        .with(14, b"044525000")
        .with(15, b"")
        .with(17, b"40503810000004000000")
        .with(60, b"0")
        .with(101, b"04")
        .with(102, b"0")
        .with(104, b"0");
    for set in 64 * part..64 * (part + 1) {
        for order in [Some(fillable), Some(fillable.without(&[61])), None] {
            let dates = Dates::PROGRAM.allowing(random.pick(&LISTS));
            let order = order.unwrap_or_else(|| budget_at(random, dates));
            by_list(comparison, &blanked(order, set), dates)?;
        }
        by_list(comparison, &blanked(Texts::s(), set), Dates::PROGRAM)?;
    }
    Ok(())
}

/// How many parts the sets of blanks are gone through in.
pub const BLANK_PARTS: usize = 16;

/// How many parts the forms are gone through in.
pub const FORM_PARTS: usize = ACCOUNTS.len() * CODES.len() * PAYERS.len();

const ACCOUNTS: [Account; 4] = [
    Account::Treasury,
    Account::Institution,
    Account::OtherA,
    Account::B,
];
const CODES: [Code; 3] = [Code::Zero, Code::Four, Code::Uin];
const PAYERS: [Payer; 4] = [Payer::Zero, Payer::Foreign, Payer::Inn10, Payer::Inn12];
const BASES: [Option<Basis>; 4] = [
    None,
    Some(Basis::Zero),
    Some(Basis::DoubleZero),
    Some(Basis::Pair),
];
const DOCUMENTS: [Option<Document>; 5] = [
    None,
    Some(Document::Zero),
    Some(Document::DoubleZero),
    Some(Document::Person),
    Some(Document::Other),
];
const DATES: [Option<Date>; 4] = [
    None,
    Some(Date::Zero),
    Some(Date::DoubleZero),
    Some(Date::Day),
];

/// Every combination of the fields' forms, blanks of 101, 106, 108 and 109 among
/// them: checked and completed, a blank 101 with each of the eight lists, a status that
/// has a date with it and without it in the list.
pub fn forms<L: Library>(
    comparison: &mut Comparison<'_, L>,
    random: &mut Random,
    part: usize,
) -> Outcome {
    let account = ACCOUNTS[part % 4];
    let code = CODES[part / 4 % 3];
    let payer = PAYERS[part / 12];
    for (status, list) in statuses_and_lists(random) {
        let dates = Dates::PROGRAM.allowing(list);
        for basis in BASES {
            for document in DOCUMENTS {
                for date in DATES {
                    for zeros in 0..8 {
                        let forms = Forms {
                            account,
                            code,
                            payer,
                            status,
                            kpp: zeros & 1 == 0,
                            kbk: zeros & 2 == 0,
                            oktmo: random.percent(50),
                            basis,
                            office: zeros & 4 == 0,
                            document,
                            date,
                        };
                        let texts = with_forms(random, &forms);
                        let _ = check_and_complete(comparison, &texts, dates)?;
                    }
                }
            }
        }
    }
    Ok(())
}

/// A blank 101 with all lists, a status that has a date with two of them, any other with
/// one.
fn statuses_and_lists(random: &mut Random) -> Vec<(Option<&'static str>, [bool; 3])> {
    let mut all: Vec<_> = LISTS.map(|list| (None, list)).to_vec();
    for status in ALL_STATUSES {
        let mut list = random.pick(&LISTS);
        all.push((Some(status), list));
        let place = ["02", "32", "33"].iter().position(|dated| *dated == status);
        if let Some(place) = place {
            list[place] = !list[place];
            all.push((Some(status), list));
        }
    }
    all
}

fn check_and_complete<L: Library>(
    comparison: &mut Comparison<'_, L>,
    texts: &Texts,
    dates: Dates,
) -> Result<Result<Class, Refusal>, Difference> {
    let verdict = comparison.check(&texts.sheet(), dates)?;
    let draft = texts.draft(first_revision);
    let (answer, sheet) = comparison.complete(&draft, Lent::filled(390, 0xEE), dates)?;
    // A completed sheet is accepted; a budget payment accepted as it is needs no
    // filling.
    if answer.is_ok() {
        let accepted = comparison.check(sheet.bytes(), dates)?.is_ok();
        same("check", accepted, true, || "a completed sheet".to_owned())?;
    }
    if let Ok(class) = verdict {
        let plain = answer.map(|completed| (completed.count, completed.set));
        let expected = match class {
            Class::O => Err(Refusal::Ordinary),
            _ => Ok((1, 0)),
        };
        same("complete", plain, expected, || {
            "an accepted sheet".to_owned()
        })?;
    }
    Ok(verdict)
}

/// Dates that 12 does not refuse, and dates that it does.
const TAKEN_AND_REFUSED: [Dates; 2] = [Dates::PROGRAM, Dates::given(0)];

/// Every size up to twice the right one, for each buffer of each function.
pub fn sizes<L: Library>(comparison: &mut Comparison<'_, L>) -> Outcome {
    let sheet = Texts::s().sheet();
    let draft = Texts::s().draft(first_revision);
    let message = message(101, 2, b"08");
    let lines = lines_of(&Texts::s());
    for size in 0..=2 * DRAFT_SIZE {
        let sized = |bytes: &[u8]| {
            let mut bytes = bytes.to_vec();
            bytes.resize(size, 0);
            Lent::new(&bytes)
        };
        for dates in TAKEN_AND_REFUSED {
            let _ = comparison.check(sized(&sheet).bytes(), dates)?;
            let _ = comparison.complete(sized(&draft).bytes(), Lent::new(&sheet), dates)?;
            let _ = comparison.complete(&draft, sized(&sheet), dates)?;
            blocks::write(comparison, sized(&sheet).bytes(), dates, &sized(&lines))?;
        }
        blocks::read(comparison, &lines, &sized(&sheet))?;
        blocks::read(comparison, sized(&lines).bytes(), &Lent::new(&sheet))?;
        let mut other = comparison.fresh(sized(&draft))?;
        let _ = comparison.post(&mut other, &message)?;
        comparison.copy(sized(&draft).bytes(), Lent::new(&sheet))?;
        comparison.copy(&draft, sized(&sheet))?;
        for set in [0, 1 << 15] {
            let sheet_of_size = sized(&sheet);
            let _ = comparison.take_up(&mut sized(&draft), &sheet, set)?;
            let _ = comparison.take_up(&mut sized(&draft), sheet_of_size.bytes(), set)?;
            let _ = comparison.take_up(&mut Lent::new(&draft), sheet_of_size.bytes(), set)?;
        }
        let _ = comparison.read(sized(&message).bytes())?;
    }
    Ok(())
}

/// Bytes that matter in a length, a pad or a text.
const BYTES: [u8; 9] = [0, 1, 24, 25, 26, b'0', b'9', 128, 255];

/// Every place of a sheet and of a draft with another byte.
pub fn places<L: Library>(comparison: &mut Comparison<'_, L>) -> Outcome {
    let texts = Texts::s().without(&[105]);
    let changed = |bytes: &[u8], place: usize, byte| {
        let mut bytes = bytes.to_vec();
        bytes[place] = byte;
        bytes
    };
    for byte in BYTES {
        for place in 0..390 {
            let sheet = changed(&texts.sheet(), place, byte);
            for dates in TAKEN_AND_REFUSED {
                let _ = comparison.check(&sheet, dates)?;
            }
            let mut draft = Lent::new(&texts.draft(first_revision));
            let _ = comparison.take_up(&mut draft, &sheet, 1 << (place / 26))?;
        }
        for place in 0..DRAFT_SIZE {
            let draft = changed(&texts.draft(first_revision), place, byte);
            for dates in TAKEN_AND_REFUSED {
                let _ = comparison.complete(&draft, Lent::filled(390, 0xEE), dates)?;
            }
            comparison.copy(&draft, Lent::filled(390, 0xEE))?;
            let set = 1 << (place / DRAFT_SLOT_SIZE);
            let _ = comparison.take_up(&mut Lent::new(&draft), &Texts::s().sheet(), set)?;
            let message = message(FIELDS[place / DRAFT_SLOT_SIZE], 1, b"08");
            let _ = comparison.post(&mut Lent::new(&draft), &message)?;
        }
    }
    Ok(())
}

/// Numbers that matter as a date: the ends of the years, of the given record and of an
/// order's date, with a day off; 29 February; what is no date.
const NUMBERS: [u32; 17] = [
    0,
    18991231,
    19000101,
    19000229,
    20000229,
    20230229,
    ORDER_DATE_MIN - 1,
    ORDER_DATE_MIN,
    20230930,
    20231001,
    20231231,
    20240101,
    20240102,
    20991231,
    21000101,
    1 << 31,
    u32::MAX,
];

/// Dates: every number from the first of September 2023 to the last of February 2024 as
/// the order's date, with the given record, for each status and for completion; as each
/// entry of the record, for its status; every combination of the numbers that matter.
pub fn dates<L: Library>(comparison: &mut Comparison<'_, L>, random: &mut Random) -> Outcome {
    let sheets: Vec<Sheet> = ALL_STATUSES
        .into_iter()
        .chain(["32", "33", "02"])
        .map(|status| class_a(random, status).sheet())
        .collect();
    // The last three have an entry of the record, in its order.
    let (of_all, of_three) = sheets.split_at(ALL_STATUSES.len());
    let open = Texts::s().without(&BLANKS).with(60, b"0").with(102, b"0");
    let hopeless = open.with(104, b"0");
    for number in 20230901..=20240229 {
        let dates = Dates::given(number);
        for sheet in of_all {
            let _ = comparison.check(sheet, dates)?;
        }
        complete(comparison, &open, dates)?;
        if is_day(number) {
            complete(comparison, &hopeless, dates)?;
        }
        for order in [ORDER_DATE_MIN, 20231015, 20240101] {
            for (entry, sheet) in of_three.iter().enumerate() {
                let dates = Dates::given(order).with_entry(entry, number);
                let _ = comparison.check(sheet, dates)?;
                complete(comparison, &open, dates)?;
            }
        }
    }
    for place in 0..NUMBERS.len().pow(4) {
        let number = |digit| NUMBERS[place / NUMBERS.len().pow(digit) % NUMBERS.len()];
        let dates = Dates::given(number(0)).with_entries([1, 2, 3].map(number));
        for sheet in of_three {
            let _ = comparison.check(sheet, dates)?;
        }
        complete(comparison, &open, dates)?;
    }
    Ok(())
}

/// Entries of lists: every field number and the places up to past the longest list's end,
/// with each of the eight lists, on both sides of each end of the given record, and at dates
/// that are refused, of which each number that matters is one.
pub fn entries<L: Library>(comparison: &mut Comparison<'_, L>) -> Outcome {
    let lists = LISTS.map(|list| Dates::PROGRAM.allowing(list));
    let ends = NUMBERS.map(Dates::given);
    let records = NUMBERS
        .into_iter()
        .flat_map(|number| [0, 1, 2].map(|entry| Dates::PROGRAM.with_entry(entry, number)));
    for dates in lists.into_iter().chain(ends).chain(records) {
        for field in 0..=u8::MAX {
            for place in (0..=30).chain([usize::MAX]) {
                comparison.entry(field, place, dates)?;
            }
        }
    }
    Ok(())
}

fn complete<L: Library>(
    comparison: &mut Comparison<'_, L>,
    texts: &Texts,
    dates: Dates,
) -> Outcome {
    let draft = texts.draft(first_revision);
    let before = Lent::filled(390, 0xEE);
    comparison.complete(&draft, before, dates).map(drop)
}

/// Class B with ten blanks, which status 04 completes, or 02 where it is allowed.
fn all_blank() -> Texts {
    let class_b = Texts::s()
        .with(14, b"044525000")
        .with(15, b"")
        .with(17, b"40503810000004000000");
    class_b.without(&FILLABLE)
}

/// Parts of a proposal: every set on one, every part of one with each of the eight lists,
/// every part of one with ten blanks; these taken up and posted by hand. Revisions at both
/// ends; for each slot each reason not to take up its value, alone and beside another slot.
pub fn take_ups<L: Library>(comparison: &mut Comparison<'_, L>, random: &mut Random) -> Outcome {
    let open = Texts::s().without(&BLANKS).with(60, b"0").with(102, b"0");
    for list in LISTS {
        every_part(comparison, random, &open, &[list])?;
    }
    every_part(comparison, random, &all_blank(), &LISTS)?;
    let draft = open.draft(first_revision);
    let proposed = BLANKS
        .iter()
        .fold(open, |texts, &field| texts.with(field, b"0"));
    let sheet = proposed.with(101, b"04").sheet();
    for set in 0..=u16::MAX {
        let _ = comparison.take_up(&mut Lent::new(&draft), &sheet, set)?;
    }
    every_reason(comparison)
}

/// Every part of a proposal to these texts, with these lists in turn.
fn every_part<L: Library>(
    comparison: &mut Comparison<'_, L>,
    random: &mut Random,
    texts: &Texts,
    lists: &[[bool; 3]],
) -> Outcome {
    for (number, &list) in (0..1 << FILLABLE.len()).zip(lists.iter().cycle()) {
        let part: Vec<u8> = (0..FILLABLE.len())
            .filter(|bit| number >> bit & 1 == 1)
            .map(|bit| FILLABLE[bit])
            .collect();
        if part.iter().any(|&field| !texts.get(field).is_empty()) {
            continue;
        }
        let set = part.iter().fold(0, |set, &field| set | 1 << slot_of(field));
        let dates = Dates::PROGRAM.allowing(list);
        let draft = Lent::new(&texts.draft(first_revision));
        let Some(proposal) = Proposal::of(comparison, &draft, dates)? else {
            continue;
        };
        proposal.take_up(comparison, set)?;
        proposal.post_by_hand(comparison, random, set)?;
    }
    Ok(())
}

/// Revisions at both ends, and where a byte of them ends.
const REVISIONS: [u32; 9] = [
    0,
    1,
    255,
    256,
    65_535,
    16_777_215,
    1 << 31,
    u32::MAX - 1,
    u32::MAX,
];

/// Each slot, alone and beside another slot or bit 15: blank or given in the draft, with
/// each revision, blank or given in the sheet.
fn every_reason<L: Library>(comparison: &mut Comparison<'_, L>) -> Outcome {
    for field in FIELDS {
        for place in 0..4 * REVISIONS.len() {
            let revision = REVISIONS[place / 4];
            let blank = |texts: Texts, bit| match place & bit {
                0 => texts.without(&[field]),
                _ => texts,
            };
            let mut draft = blank(Texts::BLANK.with(field, b"0"), 1).draft(first_revision);
            // Either party, or none where the revision is 0.
            let party = match revision {
                0 => 0,
                _ => PARTIES[place / 4 % 2],
            };
            let stamp = [&revision.to_be_bytes()[..], &[party]].concat();
            draft[DRAFT_SLOT_SIZE * slot_of(field)..][..LENGTH_PLACE].copy_from_slice(&stamp);
            let sheet = blank(Texts::s(), 2).sheet();
            for other in 0..16 {
                let set = 1 << slot_of(field) | 1 << other;
                let _ = comparison.take_up(&mut Lent::new(&draft), &sheet, set)?;
            }
        }
    }
    Ok(())
}

/// Amounts and limits that matter: the ends of the range and beyond, and small ones.
const KOPECKS: [u64; 14] = [
    0,
    1,
    2,
    99,
    100,
    4_999,
    5_000,
    5_001,
    500_000_000_000,
    KOPECKS_MAX - 1,
    KOPECKS_MAX,
    KOPECKS_MAX + 1,
    u64::MAX - 1,
    u64::MAX,
];

/// Rates that matter.
const RATES: [u64; 12] = [
    0,
    1,
    50,
    4_999,
    5_000,
    5_001,
    RATE_MAX - 1,
    RATE_MAX,
    RATE_MAX + 1,
    RATE_MAX + 2,
    u64::MAX - 1,
    u64::MAX,
];

/// Charges: every combination of amounts, rates and limits that matter; every rate up
/// to two beyond the range, with amounts from 1 to 25 and those at its end.
pub fn charges<L: Library>(comparison: &mut Comparison<'_, L>) -> Outcome {
    for amount in KOPECKS {
        for rate in RATES {
            for least in KOPECKS {
                for greatest in KOPECKS {
                    comparison.charge(&Charge {
                        amount,
                        rate,
                        least,
                        greatest,
                    })?;
                }
            }
        }
    }
    for amount in (1..=25).chain(KOPECKS_MAX - 5..=KOPECKS_MAX) {
        for rate in 0..=RATE_MAX + 2 {
            comparison.charge(&Charge {
                amount,
                rate,
                least: 0,
                greatest: KOPECKS_MAX,
            })?;
        }
    }
    Ok(())
}

/// Year lengths that matter besides the two.
const OTHER_YEARS: [u32; 10] = [
    0,
    1,
    2,
    363,
    364,
    367,
    368,
    365 + (1 << 16),
    u32::MAX - 1,
    u32::MAX,
];

/// Parts: every day of both years, and two beyond, with the amounts that matter and
/// those from 1 to 40; the highest numbers; other years.
pub fn parts<L: Library>(comparison: &mut Comparison<'_, L>) -> Outcome {
    for amount in KOPECKS.into_iter().chain(1..=40) {
        for year in YEARS {
            let beyond = [u32::MAX - 1, u32::MAX];
            for days in (0..=year + 2).chain(beyond) {
                comparison.part(&Parting { amount, days, year })?;
            }
        }
    }
    for amount in KOPECKS {
        for year in OTHER_YEARS {
            let days = [0, 1, 2, 31, 364, 365, 366, 367, u32::MAX - 1, u32::MAX];
            for days in days.into_iter().chain([year]) {
                comparison.part(&Parting { amount, days, year })?;
            }
        }
    }
    Ok(())
}

/// What the places held before.
const HELD: [u64; SHARE_PLACES] = [0xEEEE_EEEE_EEEE_EEEE; SHARE_PLACES];

/// Shares: every two periods of both years, and what is a day off; one to twenty periods,
/// and each of them changed in every place; the amounts that matter, other years.
pub fn shares<L: Library>(comparison: &mut Comparison<'_, L>) -> Outcome {
    for year in YEARS {
        for first in 0..=year + 1 {
            for second in (year + 1).saturating_sub(first + 2)..=year + 1 - first {
                for amount in [1, 1000, KOPECKS_MAX] {
                    share(comparison, amount, year, &[first, second])?;
                }
            }
        }
        for count in 0..=20 {
            for periods in lists(year, count) {
                for amount in KOPECKS.into_iter().chain(1..=25) {
                    share(comparison, amount, year, &periods)?;
                }
                changes(&periods).try_for_each(|periods| share(comparison, 7, year, &periods))?;
            }
        }
    }
    for year in OTHER_YEARS {
        for count in 0..=13.min(year as usize) {
            for periods in lists(year, count) {
                share(comparison, 1000, year, &periods)?;
            }
        }
        share(comparison, u64::MAX, year, &[u32::MAX; SHARE_PLACES])?;
        share(comparison, 1000, year, &[0])?;
    }
    Ok(())
}

fn share<L: Library>(
    comparison: &mut Comparison<'_, L>,
    amount: u64,
    year: u32,
    periods: &[u32],
) -> Outcome {
    let sharing = Sharing {
        amount,
        year,
        periods: periods.to_vec(),
    };
    comparison.shares(&sharing, &HELD)
}

/// So many periods that make the year: as equal as can be, the longest first, the longest
/// last. None make none.
fn lists(year: u32, count: usize) -> [Vec<u32>; 3] {
    let many = count as u32;
    let equal = (0..many).map(|place| year / many + u32::from(place < year % many));
    let long = |longest| {
        let days = move |place| if place == longest { year - many + 1 } else { 1 };
        (0..many).map(days).collect()
    };
    [equal.collect(), long(0), long(many.wrapping_sub(1))]
}

/// The periods with one of them a day longer, a day shorter, its days given to the next
/// one, 2^32 - 1, and with 2^32 more in it and the next one together; the last also in as
/// many pairs as there are; the periods without the last.
fn changes(periods: &[u32]) -> impl Iterator<Item = Vec<u32>> + '_ {
    let count = periods.len();
    let changed = move |place: usize, change: fn(&mut u32, &mut u32)| {
        let mut changed = periods.to_vec();
        let (mut one, mut other) = (changed[place], changed[(place + 1) % count]);
        change(&mut one, &mut other);
        changed[(place + 1) % count] = other;
        changed[place] = one;
        changed
    };
    let short = periods[..count.saturating_sub(1)].to_vec();
    let mut again = periods.to_vec();
    for pair in again.chunks_exact_mut(2) {
        pair.iter_mut().for_each(|days| *days += 1 << 31);
    }
    (0..count)
        .flat_map(move |place| {
            [
                changed(place, |one, _| *one += 1),
                changed(place, |one, _| *one -= 1),
                changed(place, |one, other| *other += std::mem::take(one)),
                changed(place, |one, _| *one = u32::MAX),
                changed(place, |one, other| {
                    *other += 1 + *one;
                    *one = u32::MAX;
                }),
                changed(place, |one, other| {
                    *one += 1 << 31;
                    *other += 1 << 31;
                }),
            ]
        })
        .chain([again, short])
}

/// Pooling: every list of up to six lines of three INNs; every byte in every place of
/// three lines; every size of a register up to 503 lines, and of an output about the
/// least; a wrong line in every place of 500; the amounts that matter.
pub fn pools<L: Library>(comparison: &mut Comparison<'_, L>) -> Outcome {
    let held: Vec<u8> = (0..=u8::MAX).cycle().take(POOL_SIZE + 60).collect();
    let output = Lent::new(&held[..POOL_SIZE]);
    for lines in small_registers() {
        let pooling = Pooling::new(&lines);
        for amount in pooling.amount - 1..=pooling.amount + 1 {
            let register = pooling.register.clone();
            comparison.pool(&Pooling { register, amount }, &output)?;
        }
        comparison.pool(&pooling, &Lent::new(&output_like(&pooling)))?;
    }
    let three = &numbered(3, 2);
    for place in 0..3 * LINE_SIZE {
        for byte in 0..=u8::MAX {
            let mut pooling = Pooling::new(three);
            pooling.register[place] = byte;
            comparison.pool(&pooling, &output)?;
        }
    }
    let long = Pooling::new(&numbered(503, 30)).register;
    for size in 0..=long.len() {
        comparison.pool(&Pooling::of(long[..size].to_vec()), &output)?;
    }
    for lines in [three, &numbered(LINES_MAX, LINES_MAX), &vec![]] {
        let pooling = Pooling::new(lines);
        for size in (0..100).chain(POOL_SIZE - 60..=POOL_SIZE + 60) {
            let output = Lent::new(&held[..size]);
            for amount in [pooling.amount, pooling.amount + 1] {
                let register = pooling.register.clone();
                comparison.pool(&Pooling { register, amount }, &output)?;
            }
        }
    }
    wrong_lines(comparison, &output)?;
    for kopecks in KOPECKS {
        for amount in KOPECKS.into_iter().chain(AMOUNTS) {
            for count in [1, 2, LINES_MAX] {
                let mut pooling = Pooling::new(&vec![
                    Line {
                        kopecks,
                        ..three[0]
                    };
                    count
                ]);
                comparison.pool(&pooling, &output)?;
                pooling.amount = amount;
                comparison.pool(&pooling, &output)?;
            }
        }
    }
    Ok(())
}

/// Amounts of an order that matter.
const AMOUNTS: [u64; 7] = [
    500 * KOPECKS_MAX - 1,
    500 * KOPECKS_MAX,
    500 * KOPECKS_MAX + 1,
    ORDER_MAX - 1,
    ORDER_MAX,
    ORDER_MAX + 1,
    ORDER_MAX + 2,
];

/// Every list of one to six lines of three INNs. The kopecks tell which lines a sum has.
fn small_registers() -> impl Iterator<Item = Vec<Line>> {
    let inns = [7_810_234_567, 1_234_567_890, 7_810_234_568].map(inn_of);
    (1..=6).flat_map(move |count: u32| {
        (0..3_usize.pow(count)).map(move |number| {
            let line = |place| Line {
                inn: inns[number / 3_usize.pow(place) % 3],
                kopecks: 3 << (4 * place),
            };
            (0..count).map(line).collect()
        })
    })
}

/// So many lines of so many INNs in turn, with 1, 2, 3 kopecks and so on.
fn numbered(count: usize, inns: usize) -> Vec<Line> {
    let line = |place| Line {
        inn: inn_of(7_700_000_000 + 37 * (place % inns) as u64),
        kopecks: place as u64 + 1,
    };
    (0..count).map(line).collect()
}

/// An output that holds the register's own lines, again and again.
fn output_like(pooling: &Pooling) -> Vec<u8> {
    let lines = pooling.register.iter().copied();
    lines.cycle().take(POOL_SIZE).collect()
}

/// A register of 500 lines with one of them wrong, in every place.
fn wrong_lines<L: Library>(comparison: &mut Comparison<'_, L>, output: &Lent) -> Outcome {
    let right = numbered(LINES_MAX, 30);
    for (place, line) in right.iter().enumerate() {
        let digit = |at: usize| {
            let mut inn = line.inn;
            inn[at] = if inn[at] == b'9' { b'0' } else { inn[at] + 1 };
            inn
        };
        let inns: [Inn; 4] = [digit(11), digit(place % 12), inn_of(7), inn_of(0)];
        let wrong_inns = inns.map(|inn| Line { inn, ..*line });
        let kopecks = [0, KOPECKS_MAX + 1, u64::MAX];
        let wrong_kopecks = kopecks.map(|kopecks| Line { kopecks, ..*line });
        for wrong in wrong_inns.into_iter().chain(wrong_kopecks) {
            let mut lines = right.clone();
            lines[place] = wrong;
            comparison.pool(&Pooling::new(&lines), output)?;
        }
    }
    Ok(())
}

/// Payments: every list of up to four, with two priorities and four arrival numbers, on
/// every balance about their sum; every priority; every number of payments up to 130; a
/// balance about every opening sum of 64; a wrong one in every place of 64; every two of
/// 64 equal; lists of different lengths; the balances and amounts that matter.
pub fn queues<L: Library>(comparison: &mut Comparison<'_, L>) -> Outcome {
    for payments in small_queues() {
        for balance in 0..=16 {
            leave(comparison, balance, &payments)?;
        }
    }
    let three = &waiting(3);
    for priority in 0..=u8::MAX {
        for place in 0..3 {
            let mut payments = three.clone();
            payments[place].priority = priority;
            leave(comparison, 100, &payments)?;
        }
    }
    for count in 0..=130 {
        let mut payments = waiting(count);
        leave(comparison, 100, &payments)?;
        payments.iter_mut().for_each(|payment| payment.arrival = 7);
        leave(comparison, 100, &payments)?;
    }
    let most = &waiting(PAYMENT_PLACES);
    let mut ordered = most.clone();
    ordered.sort_by_key(|payment| (payment.priority, payment.arrival));
    for paid in 0..=PAYMENT_PLACES {
        let sum: u64 = ordered[..paid].iter().map(|payment| payment.amount).sum();
        for balance in sum.saturating_sub(1)..=sum + 1 {
            leave(comparison, balance, most)?;
        }
    }
    wrong_payments(comparison, most)?;
    lengths(comparison, most)?;
    for amount in KOPECKS {
        for balance in KOPECKS.into_iter().chain(BALANCES) {
            for count in [0, 1, PAYMENT_PLACES] {
                let mut payments = waiting(count);
                let all = payments.iter_mut();
                all.for_each(|payment| payment.amount = amount);
                leave(comparison, balance, &payments)?;
            }
            let mut payments = three.clone();
            payments[1].amount = amount;
            leave(comparison, balance, &payments)?;
        }
    }
    Ok(())
}

/// Balances that matter.
const BALANCES: [u64; 7] = [
    64 * KOPECKS_MAX - 1,
    64 * KOPECKS_MAX,
    64 * KOPECKS_MAX + 1,
    BALANCE_MAX - 1,
    BALANCE_MAX,
    BALANCE_MAX + 1,
    BALANCE_MAX + 2,
];

fn leave<L: Library>(
    comparison: &mut Comparison<'_, L>,
    balance: u64,
    payments: &[Payment],
) -> Outcome {
    let held = [0xEEEE_EEEE; PAYMENT_PLACES];
    comparison.leave(&Queue::new(balance, payments), &held)
}

/// Every list of up to four payments with two priorities and four arrival numbers, of 8,
/// 4, 2 and 1 kopecks.
fn small_queues() -> impl Iterator<Item = Vec<Payment>> {
    let arrivals = [0, 1, (1 << 31) - 1, 1 << 31];
    (0..=4).flat_map(move |count: u32| {
        (0..8_usize.pow(count)).map(move |number| {
            let payment = |place| {
                let which = number / 8_usize.pow(place) % 8;
                Payment {
                    priority: [1, 5][which / 4],
                    arrival: arrivals[which % 4],
                    amount: 8 >> place,
                }
            };
            (0..count).map(payment).collect()
        })
    })
}

/// So many payments of all priorities, with different arrival numbers, some of them above
/// 2^31, and different amounts.
fn waiting(count: usize) -> Vec<Payment> {
    let payment = |place: u32| Payment {
        priority: (place * 3 % 5) as u8 + 1,
        arrival: place.wrapping_mul(0x9E37_79B9).wrapping_sub(1),
        amount: u64::from(place * 7 % 11) + 1,
    };
    (0..count as u32).map(payment).collect()
}

/// One payment wrong in every place, and every two with one arrival number, of one
/// priority and of two.
fn wrong_payments<L: Library>(comparison: &mut Comparison<'_, L>, right: &[Payment]) -> Outcome {
    for (place, &payment) in right.iter().enumerate() {
        let priorities = [0, 6, 255].map(|priority| Payment {
            priority,
            ..payment
        });
        let amounts = [0, KOPECKS_MAX + 1, u64::MAX].map(|amount| Payment { amount, ..payment });
        for wrong in priorities.into_iter().chain(amounts) {
            let mut payments = right.to_vec();
            payments[place] = wrong;
            leave(comparison, 100, &payments)?;
        }
        for other in 0..place {
            for arrival in [0, payment.arrival] {
                for priority in [payment.priority, right[other].priority] {
                    let mut payments = right.to_vec();
                    payments[place].arrival = arrival;
                    payments[other] = Payment {
                        priority,
                        arrival,
                        ..right[other]
                    };
                    leave(comparison, 100, &payments)?;
                }
            }
        }
    }
    Ok(())
}

/// Lists of every three lengths that matter.
fn lengths<L: Library>(comparison: &mut Comparison<'_, L>, most: &[Payment]) -> Outcome {
    let all = Queue::new(100, &[most, &waiting(66)[64..]].concat());
    let lengths = [0, 1, 2, 3, 63, 64, 65, 66];
    for priorities in lengths {
        for arrivals in lengths {
            for amounts in lengths {
                let mut queue = all.clone();
                queue.priorities.truncate(priorities);
                queue.arrivals.truncate(arrivals);
                queue.amounts.truncate(amounts);
                comparison.leave(&queue, &[9; PAYMENT_PLACES])?;
            }
        }
    }
    Ok(())
}

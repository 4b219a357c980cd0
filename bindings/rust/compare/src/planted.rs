//! Differences planted on purpose: each must be found.

use cases::{day_after, day_before, is_day, Dates, ORDER_DATE_MIN};
use cases::{inn_remainder, slot_of, snils_remainder, Text, Texts, FIELDS};
use cases::{set_slot, slot_mut, ADVISER, DRAFT_SIZE, DRAFT_SLOT_SIZE, LENGTH_PLACE};
use cases::{Line, Payment, Pooling, Queue};
use cases::{KOPECKS_MAX, LINE_SIZE, POOL_SIZE, RATE_MAX, YEARS};
use kieselbrot::{Broken, Class, Completed, Message, Paid, Part, Posted, Quickened, Refusal};
use kieselbrot::{BrokenRules, PAYMENT_PLACES, SHARE_PLACES};

mod lines;
mod origins;

use crate::library::{Library, Reference};
use crate::planted_parties::{as_the_clients, revision_zero};
use crate::pretest::{is_blank, VARYING};
use crate::quick::tried;
use crate::taken::{revision_in, slots, text_in};

/// The second implementation with one thing changed.
#[derive(Clone, Copy, Debug, PartialEq, Eq)]
pub enum Planted {
    /// Rule 18 knows no exception for centuries: 29.02.1900 is a date.
    Century,
    /// Rule 27 makes no exception for status 01.
    Status01,
    /// Class A without 03252.
    Without03252,
    /// Rule 17 allows the hyphen.
    Hyphen,
    /// The last byte of a sheet is not looked at.
    LastPad,
    /// Rule 8 refuses a remainder of 10, which is not written 0.
    Leaves10,
    /// Rule 8 does not look at the eleventh digit of twelve.
    Eleventh,
    /// Rule 9 wants no check digit.
    Payee,
    /// Rules 11 and 12 take "@" for a letter at place 5.
    At,
    /// Rule 21 is tested ahead of rule 22.
    Early21,
    /// Rule 35 does not ask at the bound's neighbour: 1001999 is not above it.
    Bound,
    /// Rule 35 refuses a remainder of 100, which is not written 00.
    Leaves100,
    /// A lower revision is stored: the last arrival wins.
    LastArrival,
    /// An equal revision with another text is stored.
    ClashStored,
    /// At equal revisions the client's stands over the adviser's.
    ClientWins,
    /// At equal revisions of both parties the first to arrive stands.
    FirstArrival,
    /// At equal revisions of both parties the last to arrive stands.
    LaterParty,
    /// An equal revision of the other party with another text is a clash.
    PartylessClash,
    /// An equal revision of the other party with the same text is the same.
    PartylessSame,
    /// The adviser's stands over any revision of the client's.
    PartyBeforeRevision,
    /// What is stored gets the adviser's party.
    StoredAsAdviser,
    /// A revision without a party is let through in a draft.
    NoParty,
    /// A party without a revision is let through in a draft.
    PartyOfNothing,
    /// Party 3 is read as the adviser.
    Party3,
    /// Version 2 with L 6 is read, its revision without the last byte.
    Version2L6,
    /// Version 1 is read as the client's.
    Version1AsClient,
    /// 13 is tested after 4.
    PartyAfterField,
    /// With an L that not both versions allow, an unknown version is refused with 2.
    EarlySecond2,
    /// An L that the version does not allow is tested after 13, 4 and 5.
    LateSecond2,
    /// The client is written in version 1.
    ClientInVersion1,
    /// Writing tests 13 before 3.
    PartyBeforeVersion,
    /// Values are taken up as the client's.
    TakenUpAsClient,
    /// 5 is tested before 4.
    RevisionFirst,
    /// An empty text stands at the message's start.
    EmptyText,
    /// Writing clears the rest of the buffer.
    RestCleared,
    /// Copying tests 7 before 1.
    OutputFirst,
    /// The count leaves out the fillings of earlier statuses.
    CountAnew,
    /// A blank 15 is in the set.
    Blank15,
    /// With number 10 the draft's sheet is written all the same.
    WrittenAnyway,
    /// The pretest names no rule of any draft.
    NeverNamed,
    /// The pretest names the last of the rules that all fillings break.
    LastNamed,
    /// The pretest names rule 27 where all fillings break it and none of the twelve.
    Named27,
    /// The pretest names rule 6 without its field.
    Fieldless6,
    /// The entry after the one at this place of a list is told.
    NextEntry,
    /// In the lists of 106, 108 and 109 "00" stands before "0".
    DoubleZeroFirst,
    /// Asked for an entry, 4 is tested before 12.
    FieldBefore12,
    /// The statuses that are not in force are told among those of 101.
    EveryStatus,
    /// 32 is not allowed on its first date.
    First32,
    /// 33 is not allowed on its first date.
    First33,
    /// 02 is not allowed on its last date.
    Last02,
    /// The record's dates for 32 and 33 are taken for one another.
    Swapped,
    /// An order of the earliest date is refused.
    Earliest,
    /// The record's entries need not be dates.
    AnyRecord,
    /// 12 is tested after 8.
    Late12,
    /// 12 is not asked of class O.
    Ordinary12,
    /// 02 is the last in the completion list.
    End02,
    /// 02 is not in the completion list.
    Never02,
    /// Rule 19 does not know 02.
    Rule19Without02,
    /// One status less is skipped.
    OneShort,
    /// A status that fails by rule 29 alone is skipped.
    SkippedBy29,
    /// The fillings of a skipped status are not in the count.
    Uncounted,
    /// With 10 the last status is not counted among those skipped.
    BeforeTheLast,
    /// The sheet's status is counted among those skipped.
    OwnStatus,
    /// A given 101 is never counted.
    Given101,
    /// The first entry of a field's list is taken up, whatever the sheet has.
    FirstEntry,
    /// The last slot of a set is not taken up.
    LastLeftOut,
    /// The slots ahead of one that can't take up its value are taken up all the same.
    HalfTakenUp,
    /// The last slot that can't take up its value is named.
    LastUnfit,
    /// Every value gets revision 1, so that a slot that was blanked keeps its own.
    FirstRevision,
    /// A slot with the greatest revision is passed over.
    GreatestPassed,
    /// Bit 15 is not looked at.
    Bit15Passed,
    /// A slot that is given is overwritten.
    Overwritten,
    /// A field without a list takes up a value, too.
    ListlessTaken,
    /// Taking up tests 7 before 1.
    SizeFirst,
    /// A malformed sheet is not refused where the set is empty.
    UnreadSheet,
    /// Writing lines clears the rest of the buffer.
    LinesRestCleared,
    /// The last line is written without its line feed.
    LastFeedLeftOut,
    /// The payer's INN is written in place of the recipient's.
    PayersInn,
    /// A buffer under 137 is too short for any lines.
    RoomForTheLongest,
    /// With 7 as much of the lines is written as there is room for.
    HalfWritten,
    /// Class B has lines, too.
    LinesOfB,
    /// Lines are written with any status at any date.
    WrittenAtAnyDate,
    /// Writing lines tests 12 before 1.
    DatesBefore1,
    /// Writing lines tests 12 after 8.
    LinesLate12,
    /// Writing lines tests 11 before 8.
    ClassBefore8,
    /// Writing lines tests 7 before 11.
    ShortBefore11,
    /// Lines are read without the last line feed, too.
    LastFeedNotAsked,
    /// What follows the lines is not looked at.
    TrailingLeft,
    /// Lines may be ended by CR LF.
    CrLfTaken,
    /// Lower-case letters are read as capitals.
    CaseIgnored,
    /// The recipient's INN is read with any check digit.
    PayeeUnchecked,
    /// Four digits are read as a code with any account of the treasury.
    FourOnAnyAccount,
    /// The reader asks rule 20, too.
    Rule20Asked,
    /// The reader refuses 02.
    Refused02,
    /// The texts that are not in the lines are left as they were.
    OthersKept,
    /// With 11 the sheet is blanked.
    BlankedBy11,
    /// Reading lines tests 11 before 7.
    NoLinesFirst,
    /// Lines are read into the start of a longer sheet.
    LongSheet,
    /// A charge is rounded down.
    RoundedDown,
    /// Half a kopeck goes downward.
    HalvesDownward,
    /// A rate of 10,001 is taken.
    Rate10001,
    /// An amount of 10^12 is refused.
    GreatestAmount,
    /// A least that is the greatest is refused.
    EqualLimits,
    /// A charge below the least is not raised.
    NotRaised,
    /// A part for all days of a year is refused.
    WholeYear,
    /// Of a part for a leap year the remainder is by 365.
    RemainderBy365,
    /// Each share is by itself, without what the ones before it left.
    ShareByItself,
    /// Places past the last period are not written.
    PastNotWritten,
    /// A period of 0 days is taken.
    Period0,
    /// 13 periods are taken, the last two as one.
    Periods13,
    /// The sum of the periods wraps in 32 bits.
    SumWraps,
    /// Refused shares clear the places.
    PlacesCleared,
    /// The last line of a register is not pooled.
    LastLineDropped,
    /// A pooled sum is the last of its lines.
    SumOverwritten,
    /// Pooled lines stand in the order of their INNs.
    ByInn,
    /// Pooled lines stand in the order of last appearance.
    ByLastAppearance,
    /// The difference is order minus register.
    OtherSign,
    /// With 17 the pooled lines are written all the same.
    WrittenBefore17,
    /// The output past the pooled lines is zeroed.
    RestZeroed,
    /// An INN that begins 00 is taken.
    Begins00,
    /// An output of more than 10,000 bytes is refused.
    LongOutput,
    /// 16 is tested before 7.
    RegisterFirst,
    /// A pooled sum above 10^12 is refused.
    SumAsALine,
    /// Payments leave by arrival, then by priority.
    ArrivalFirst,
    /// Payments of one priority leave as they are given.
    PriorityAlone,
    /// Arrival numbers have a sign.
    SignedArrivals,
    /// A payment behind one that waits is paid where it fits.
    LaterPaid,
    /// A payment of exactly what is left waits.
    ExactWaits,
    /// 19 is tested before 18.
    EqualFirst,
    /// Two arrival numbers of 0 are taken.
    TwoZeros,
    /// 65 payments are taken, without the last.
    Payments65,
    /// Lists are taken as far as the shortest goes.
    Shortest,
    /// The place past the last payment is not written.
    PlacePastLast,
    /// With 19 the places are cleared.
    ClearedBy19,
    /// Of all broken rules, bit n - 1 stands for rule n.
    BitBelow,
    /// Of all broken rules only the first is told.
    FirstBrokenOnly,
    /// Rule 35 is left out of all broken rules.
    Without35,
    /// Asked for all broken rules, 12 is tested before 1.
    BrokenUndatedFirst,
    /// Behind a broken one of rules 1 to 3 no other rule is told.
    BasicBrokenOnly,
    /// A slot's origin is the last among equals.
    LastOfEquals,
    /// A message of revision 0 is an origin.
    RefusedOrigin,
    /// Messages are numbered from 0.
    OriginsFrom0,
    /// A refused message has no number.
    RefusedUncounted,
    /// Origins are looked for behind a 2.
    BehindA2,
}

/// All of them.
pub const PLANTS: [Planted; 144] = [
    Planted::Century,
    Planted::Status01,
    Planted::Without03252,
    Planted::Hyphen,
    Planted::LastPad,
    Planted::Leaves10,
    Planted::Eleventh,
    Planted::Payee,
    Planted::At,
    Planted::Early21,
    Planted::Bound,
    Planted::Leaves100,
    Planted::LastArrival,
    Planted::ClashStored,
    Planted::ClientWins,
    Planted::FirstArrival,
    Planted::LaterParty,
    Planted::PartylessClash,
    Planted::PartylessSame,
    Planted::PartyBeforeRevision,
    Planted::StoredAsAdviser,
    Planted::NoParty,
    Planted::PartyOfNothing,
    Planted::Party3,
    Planted::Version2L6,
    Planted::Version1AsClient,
    Planted::PartyAfterField,
    Planted::EarlySecond2,
    Planted::LateSecond2,
    Planted::ClientInVersion1,
    Planted::PartyBeforeVersion,
    Planted::TakenUpAsClient,
    Planted::RevisionFirst,
    Planted::EmptyText,
    Planted::RestCleared,
    Planted::OutputFirst,
    Planted::CountAnew,
    Planted::Blank15,
    Planted::WrittenAnyway,
    Planted::NeverNamed,
    Planted::LastNamed,
    Planted::Named27,
    Planted::Fieldless6,
    Planted::NextEntry,
    Planted::DoubleZeroFirst,
    Planted::FieldBefore12,
    Planted::EveryStatus,
    Planted::First32,
    Planted::First33,
    Planted::Last02,
    Planted::Swapped,
    Planted::Earliest,
    Planted::AnyRecord,
    Planted::Late12,
    Planted::Ordinary12,
    Planted::End02,
    Planted::Never02,
    Planted::Rule19Without02,
    Planted::OneShort,
    Planted::SkippedBy29,
    Planted::Uncounted,
    Planted::BeforeTheLast,
    Planted::OwnStatus,
    Planted::Given101,
    Planted::FirstEntry,
    Planted::LastLeftOut,
    Planted::HalfTakenUp,
    Planted::LastUnfit,
    Planted::FirstRevision,
    Planted::GreatestPassed,
    Planted::Bit15Passed,
    Planted::Overwritten,
    Planted::ListlessTaken,
    Planted::SizeFirst,
    Planted::UnreadSheet,
    Planted::LinesRestCleared,
    Planted::LastFeedLeftOut,
    Planted::PayersInn,
    Planted::RoomForTheLongest,
    Planted::HalfWritten,
    Planted::LinesOfB,
    Planted::WrittenAtAnyDate,
    Planted::DatesBefore1,
    Planted::LinesLate12,
    Planted::ClassBefore8,
    Planted::ShortBefore11,
    Planted::LastFeedNotAsked,
    Planted::TrailingLeft,
    Planted::CrLfTaken,
    Planted::CaseIgnored,
    Planted::PayeeUnchecked,
    Planted::FourOnAnyAccount,
    Planted::Rule20Asked,
    Planted::Refused02,
    Planted::OthersKept,
    Planted::BlankedBy11,
    Planted::NoLinesFirst,
    Planted::LongSheet,
    Planted::RoundedDown,
    Planted::HalvesDownward,
    Planted::Rate10001,
    Planted::GreatestAmount,
    Planted::EqualLimits,
    Planted::NotRaised,
    Planted::WholeYear,
    Planted::RemainderBy365,
    Planted::ShareByItself,
    Planted::PastNotWritten,
    Planted::Period0,
    Planted::Periods13,
    Planted::SumWraps,
    Planted::PlacesCleared,
    Planted::LastLineDropped,
    Planted::SumOverwritten,
    Planted::ByInn,
    Planted::ByLastAppearance,
    Planted::OtherSign,
    Planted::WrittenBefore17,
    Planted::RestZeroed,
    Planted::Begins00,
    Planted::LongOutput,
    Planted::RegisterFirst,
    Planted::SumAsALine,
    Planted::ArrivalFirst,
    Planted::PriorityAlone,
    Planted::SignedArrivals,
    Planted::LaterPaid,
    Planted::ExactWaits,
    Planted::EqualFirst,
    Planted::TwoZeros,
    Planted::Payments65,
    Planted::Shortest,
    Planted::PlacePastLast,
    Planted::ClearedBy19,
    Planted::BitBelow,
    Planted::FirstBrokenOnly,
    Planted::Without35,
    Planted::BrokenUndatedFirst,
    Planted::BasicBrokenOnly,
    Planted::LastOfEquals,
    Planted::RefusedOrigin,
    Planted::OriginsFrom0,
    Planted::RefusedUncounted,
    Planted::BehindA2,
];

impl Planted {
    /// The sheet that the changed rules see in place of this one.
    fn seen(self, sheet: &[u8]) -> Vec<u8> {
        let mut seen = sheet.to_vec();
        let slot = |field| 26 * slot_of(field)..26 * (slot_of(field) + 1);
        match self {
            _ if sheet.len() != 390 => {}
            Self::Century if text(sheet, 109) == b"29.02.1900" => seen[slot(109)][2] = b'8',
            Self::Without03252 if text(sheet, 17).starts_with(b"03252") => {
                seen[slot(17)][5] = b'3';
            }
            Self::Hyphen => {
                let hyphens = seen[slot(108)].iter_mut().filter(|byte| **byte == b'-');
                hyphens
                    .skip(usize::from(sheet[slot(108)][0] == b'-'))
                    .for_each(|byte| *byte = b'+');
            }
            Self::Leaves10 if leaves_10(text(sheet, 60)) => seen[slot(60)][10] = b'1',
            Self::Eleventh if registered(text(sheet, 60), 12) => {
                let last = cases::inn_weights(12)[1];
                if fits(text(sheet, 60), last) {
                    seen[slot(60)][1..13].copy_from_slice(b"781023456779");
                }
            }
            Self::Payee if registered(text(sheet, 61), 10) => {
                seen[slot(61)][1..11].copy_from_slice(b"6730054024");
            }
            Self::At => [102, 103].into_iter().for_each(|field| {
                if text(sheet, field).get(4) == Some(&b'@') {
                    seen[slot(field)][5] = b'A';
                }
            }),
            Self::Bound if text(sheet, 108).starts_with(b"14;001001999") => {
                seen[slot(108)][12] = b'8';
            }
            Self::Leaves100 if leaves_100(text(sheet, 108)) => seen[slot(108)][14] = b'1',
            Self::LastPad if text(sheet, 109).len() < 25 => seen[389] = 0,
            _ => {}
        }
        seen
    }
}

/// So many digits not beginning 00.
fn registered(text: &[u8], width: usize) -> bool {
    text.len() == width && text.iter().all(u8::is_ascii_digit) && !text.starts_with(b"00")
}

/// The digit behind the weighted ones is theirs.
fn fits(text: &[u8], weights: &[u32]) -> bool {
    u32::from(text[weights.len()] - b'0') == inn_remainder(text, weights) % 10
}

/// Ten digits of which the first nine leave 10.
fn leaves_10(text: &[u8]) -> bool {
    registered(text, 10) && inn_remainder(text, cases::inn_weights(10)[0]) == 10
}

/// An identifier of type 14 whose nine digits leave 100.
fn leaves_100(text: &[u8]) -> bool {
    let nine = text.strip_prefix(b"14;").and_then(|digits| digits.get(..9));
    nine.is_some_and(|nine| nine.iter().all(u8::is_ascii_digit) && snils_remainder(nine) == 100)
}

/// A field's text, or nothing if there is no such place.
fn text(sheet: &[u8], field: u8) -> &[u8] {
    let slot = sheet.get(26 * slot_of(field)..).unwrap_or_default();
    let length = slot.first().copied().unwrap_or_default();
    slot.get(1..1 + usize::from(length)).unwrap_or_default()
}

/// The last of the rules that all fillings of a draft break: the first, if that one
/// is mended and the draft tested again until none is left.
fn last_named(draft: &[u8]) -> Result<Option<Broken>, Refusal> {
    let mut mended = draft.to_vec();
    let mut last = None;
    while let Some(broken) = Reference.pretest(&mended)? {
        last = Some(broken);
        mend(&mut mended, broken);
    }
    Ok(last)
}

/// Changes the field of a broken rule so that the rule is kept. A "0" keeps rule 6,
/// and breaks what a blank breaks besides.
fn mend(draft: &mut [u8], broken: Broken) {
    let text: &[u8] = match broken.rule {
        5 => {
            // Digits 6 to 8.
            let slot = slot_mut(draft, broken.field);
            return slot[LENGTH_PLACE + 6..][..3].copy_from_slice(b"643");
        }
        7 | 13 | 22 | 28 => b"18201061201010000510",
        9 => b"6730054024",
        12 => b"772801001",
        _ => b"0",
    };
    set_slot(draft, broken.field, 1, ADVISER, text);
}

/// Whether all fillings break rule 27: 60 and 102 are alike in them, and a blank 101
/// is filled with status 01, too.
fn breaks_27(draft: &[u8]) -> bool {
    let mut sheet = [0; 390];
    if Reference.copy(draft, &mut sheet).is_err() {
        return false;
    }
    let kpp = !matches!(text(&sheet, 102), b"" | b"0");
    match text(&sheet, 60).len() {
        12 => kpp,
        10 => !kpp && !matches!(text(&sheet, 101), b"" | b"01"),
        5 => !kpp,
        _ => false,
    }
}

impl Planted {
    /// The dates that a changed library sees in place of these.
    fn seen_dates(self, dates: Dates) -> Dates {
        let order = dates.order;
        let mut seen = dates;
        match self {
            _ if !is_day(order) => {}
            Self::First32 if order == dates.first32 => seen.first32 = day_after(order),
            Self::First33 if order == dates.first33 => seen.first33 = day_after(order),
            Self::Last02 if order == dates.last02 => seen.last02 = day_before(order),
            Self::Swapped => (seen.first32, seen.first33) = (dates.first33, dates.first32),
            Self::Earliest if order == ORDER_DATE_MIN => seen.order = day_before(order),
            // What is no date is before the order's date or after it, too.
            Self::AnyRecord => seen = dates.allowing(dates.allowed()),
            _ => {}
        }
        seen
    }

    /// What a changed check says of a sheet that is refused with 12.
    fn undated(self, sheet: &[u8]) -> Result<Class, Refusal> {
        match (self, Reference.check(sheet, Dates::PROGRAM)) {
            (Self::Late12, broken @ Err(Refusal::Broken { .. })) => broken,
            (Self::Ordinary12, ordinary @ Ok(Class::O)) => ordinary,
            _ => Err(Refusal::Undated),
        }
    }
}

impl Planted {
    /// How many statuses a changed quick completion skips, with a sheet or 10, where so many
    /// should be.
    fn changed_skips(self, draft: &[u8], dates: Dates, answer: Quickened, sheet: &[u8]) -> usize {
        let Quickened { completed, skipped } = answer;
        match self {
            Self::OneShort => skipped.saturating_sub(1),
            Self::SkippedBy29 => {
                let tried = tried(draft, dates, completed, sheet).into_iter();
                skipped + tried.filter(|&rule| rule == 29).count()
            }
            Self::BeforeTheLast if completed.is_err() => skipped - last_skipped(draft, dates),
            Self::OwnStatus if completed.is_ok() => skipped + 1,
            Self::Given101 if !is_blank(draft, 101) => 0,
            _ => skipped,
        }
    }
}

/// 1 if the last status is skipped of a draft that none completes, else 0.
fn last_skipped(draft: &[u8], dates: Dates) -> usize {
    let mut given = draft.to_vec();
    if let (true, Some(last)) = (is_blank(draft, 101), dates.statuses().last()) {
        set_slot(&mut given, 101, 1, ADVISER, last.as_bytes());
    }
    Reference.quick(&given, &mut [0; 390], dates).skipped
}

impl Planted {
    /// The set that a changed taking up sees in place of this one.
    fn seen_set(self, draft: &[u8], set: u16) -> u16 {
        let of_size = draft.len() == DRAFT_SIZE;
        let without = |slots: &mut dyn Iterator<Item = usize>| {
            slots.fold(set, |set, slot| set & !(1 << slot))
        };
        match self {
            Self::LastLeftOut => without(&mut slots(set).last().into_iter()),
            Self::Bit15Passed => set & 0x7FFF,
            Self::GreatestPassed if of_size => {
                let greatest = |slot: &usize| revision_in(draft, *slot) == u32::MAX;
                without(&mut slots(set & 0x7FFF).filter(greatest))
            }
            _ => set,
        }
    }

    /// The sheet that it sees in place of this one.
    fn seen_proposal(self, sheet: &[u8], set: u16) -> Vec<u8> {
        let mut seen = sheet.to_vec();
        match self {
            Self::FirstEntry if sheet.len() == 390 => {
                for slot in slots(set & 0x7FFF).filter(|slot| sheet[26 * slot] > 0) {
                    if let Some(first) = cases::list(FIELDS[slot]).first() {
                        seen[26 * slot..][..26].copy_from_slice(&Text::new(first).slot());
                    }
                }
            }
            Self::UnreadSheet if sheet.len() == 390 && set == 0 => seen.fill(0),
            _ => {}
        }
        seen
    }

    /// What a changed taking up does of a set of which this field's slot is the first that
    /// can't take up its value.
    fn changed_refusal(
        self,
        draft: &mut [u8],
        sheet: &[u8],
        set: u16,
        field: u8,
    ) -> Result<(), Refusal> {
        let refused = Err(Refusal::NotTakenUp { field });
        let slot = match field {
            0 => FIELDS.len(),
            field => slot_of(field),
        };
        match self {
            Self::HalfTakenUp => {
                let ahead = set & ((1 << slot) - 1);
                Reference.take_up(draft, sheet, ahead).and(refused)
            }
            Self::LastUnfit => {
                let behind = slots(set).filter(|&other| other > slot);
                let alone = |slot: usize| Reference.take_up(&mut draft.to_vec(), sheet, 1 << slot);
                behind
                    .map(alone)
                    .filter(Result::is_err)
                    .last()
                    .unwrap_or(refused)
            }
            Self::Overwritten | Self::ListlessTaken if slot < FIELDS.len() => {
                let listless = cases::list(field).is_empty();
                let given = draft[DRAFT_SLOT_SIZE * slot + LENGTH_PLACE] > 0;
                let revision = revision_in(draft, slot);
                let text = text_in(sheet, slot);
                let taken = match self {
                    Self::Overwritten => given && !listless,
                    _ => listless && !given,
                };
                if !taken || revision == u32::MAX || text.is_empty() {
                    return refused;
                }
                // The others first: one of them may be refused.
                self.take_up(draft, sheet, set & !(1 << slot))?;
                let message = cases::message(field, revision + 1, text);
                Reference.post(draft, &message).map(drop)
            }
            _ => refused,
        }
    }
}

impl Planted {
    /// The periods that changed shares see in place of these.
    fn seen_periods(self, year: u32, periods: &[u32]) -> Vec<u32> {
        let mut seen = periods.to_vec();
        match self {
            Self::Period0 => seen.retain(|&days| days != 0),
            Self::Periods13 if seen.len() == 13 => {
                let last = seen.pop().unwrap_or_default();
                seen[11] = seen[11].wrapping_add(last);
            }
            Self::SumWraps if YEARS.contains(&year) && (1..=12).contains(&seen.len()) => {
                let sum = seen.iter().fold(0_u32, |sum, &days| sum.wrapping_add(days));
                if sum == year && !seen.contains(&0) && seen.iter().any(|&days| days > year) {
                    seen = vec![year];
                }
            }
            _ => {}
        }
        seen
    }
}

impl Planted {
    /// Pooled lines as they should be, changed.
    fn changed_pool(self, lines: &[Line], pooled: &mut [Line]) {
        let last = |pooled: &Line| lines.iter().rposition(|line| line.inn == pooled.inn);
        match self {
            Self::SumOverwritten => {
                for line in pooled {
                    line.kopecks = last(line).map_or(0, |place| lines[place].kopecks);
                }
            }
            Self::ByInn => pooled.sort_by_key(|line| line.inn),
            Self::ByLastAppearance => pooled.sort_by_key(last),
            _ => {}
        }
    }

    /// What a changed pooling does where lines are pooled, after it was done.
    fn made_pool(self, pooling: &Pooling, count: usize, output: &mut [u8], before: &[u8]) -> usize {
        let lines: Vec<Line> = pooling.lines().collect();
        let size = LINE_SIZE * count;
        match self {
            Self::LastLineDropped if lines.len() > 1 => {
                output.copy_from_slice(before);
                let shorter = Pooling::new(&lines[..lines.len() - 1]);
                let pool = Reference.pool(&shorter.register, shorter.amount, output);
                return pool.unwrap_or(count);
            }
            Self::SumOverwritten | Self::ByInn | Self::ByLastAppearance => {
                let mut pooled: Vec<Line> =
                    output[..size].as_chunks().0.iter().map(Line::of).collect();
                self.changed_pool(&lines, &mut pooled);
                output[..size].copy_from_slice(&Pooling::new(&pooled).register);
            }
            Self::RestZeroed => output[size..].fill(0),
            _ => {}
        }
        count
    }
}

impl Planted {
    /// The payments that a changed order sees in place of these.
    fn seen_queue(self, queue: &Queue) -> Queue {
        let mut seen = queue.clone();
        let Queue {
            priorities,
            arrivals,
            amounts,
            ..
        } = &mut seen;
        let shortest = priorities.len().min(arrivals.len()).min(amounts.len());
        let count = match self {
            Self::Shortest => shortest,
            Self::Payments65 if shortest == 65 => 64,
            _ => return seen,
        };
        priorities.truncate(count);
        arrivals.truncate(count);
        amounts.truncate(count);
        seen
    }

    /// A changed order of payments that are in range, and how many of them it pays.
    fn changed_order(self, balance: u64, payments: &mut [Payment]) -> Paid {
        let right = |payment: &Payment| (payment.priority, payment.arrival);
        match self {
            Self::ArrivalFirst => payments.sort_by_key(|payment| payment.arrival),
            Self::PriorityAlone => payments.sort_by_key(|payment| payment.priority),
            Self::SignedArrivals => {
                payments.sort_by_key(|payment| (payment.priority, payment.arrival as i32));
            }
            _ => payments.sort_by_key(right),
        }
        let (mut count, mut sum, mut left) = (0, 0, balance);
        for payment in payments {
            let exact = self == Self::ExactWaits && payment.amount == left;
            if payment.amount <= left && !exact {
                count += 1;
                sum += payment.amount;
                left -= payment.amount;
            } else if self != Self::LaterPaid {
                break;
            }
        }
        Paid { count, sum, left }
    }
}

impl Library for Planted {
    fn check(&self, sheet: &[u8], dates: Dates) -> Result<Class, Refusal> {
        let dates = self.seen_dates(dates);
        let answer = Reference.check(&self.seen(sheet), dates);
        let inn = text(sheet, 60).len() == 10 && text(sheet, 102) == b"0";
        match answer {
            Err(Refusal::Undated) => self.undated(sheet),
            // The other rules are for 02 as for 08.
            Err(Refusal::Broken { rule: 19, .. })
                if *self == Self::Rule19Without02 && text(sheet, 101) == b"02" =>
            {
                let mut other = sheet.to_vec();
                other[26 * slot_of(101) + 2] = b'8';
                Reference.check(&other, dates)
            }
            Err(Refusal::Broken { field, rule: 22 })
                if *self == Self::Early21 && matches!(text(sheet, 101), b"31" | b"33") =>
            {
                Err(Refusal::Broken { field, rule: 21 })
            }
            Ok(Class::A | Class::B)
                if *self == Self::Status01 && inn && text(sheet, 101) == b"01" =>
            {
                let (field, rule) = (102, 27);
                Err(Refusal::Broken { field, rule })
            }
            _ => answer,
        }
    }

    fn broken_rules(&self, sheet: &[u8], dates: Dates) -> Result<BrokenRules, Refusal> {
        let answer = Reference.broken_rules(sheet, dates);
        let rules = match answer {
            Err(Refusal::Malformed) if *self == Self::BrokenUndatedFirst && !dates.fit() => {
                return Err(Refusal::Undated);
            }
            Err(_) => return answer,
            Ok(rules) => rules,
        };
        let bits = rules.bits();
        let changed = match self {
            // Bit 0 is no rule's.
            Self::BitBelow => bits >> 2 << 1,
            Self::FirstBrokenOnly => match Reference.check(sheet, dates) {
                Err(Refusal::Broken { rule, .. }) => 1 << rule,
                _ => bits,
            },
            Self::Without35 => bits & !(1 << 35),
            Self::BasicBrokenOnly if bits & 0b1110 != 0 => bits & 0b1110,
            _ => bits,
        };
        BrokenRules::new(changed).ok_or(Refusal::Unknown { number: 0 })
    }

    fn origins(&self, input: &[u8]) -> [u64; FIELDS.len()] {
        self.changed_origins(input)
    }

    fn read<'a>(&self, message: &'a [u8]) -> Result<Message<'a>, Refusal> {
        match self.changed_reading(message, Reference.read(message)) {
            Err(Refusal::UnknownField)
                if *self == Self::RevisionFirst && revision_zero(message) =>
            {
                Err(Refusal::RevisionZero)
            }
            Ok(read) if *self == Self::EmptyText && read.text.is_empty() => Ok(Message {
                text: &message[..0],
                ..read
            }),
            answer => answer,
        }
    }

    fn write(&self, message: &Message<'_>, buffer: &mut [u8]) -> Result<usize, Refusal> {
        let length = self.changed_writing(message, buffer)?;
        if *self == Self::RestCleared {
            buffer[length..].fill(0);
        }
        Ok(length)
    }

    fn fresh(&self, draft: &mut [u8]) -> Result<(), Refusal> {
        Reference.fresh(draft)
    }

    fn post(&self, draft: &mut [u8], message: &[u8]) -> Result<Posted, Refusal> {
        let answer = self.changed_posting(draft, message);
        let stored = match answer {
            Ok(Posted::Older) => *self == Self::LastArrival,
            Err(Refusal::Clash) => *self == Self::ClashStored,
            _ => false,
        };
        if stored {
            let field = Reference.read(message)?.field;
            slot_mut(draft, field).fill(0);
            return Reference.post(draft, message);
        }
        answer
    }

    fn copy(&self, draft: &[u8], sheet: &mut [u8]) -> Result<(), Refusal> {
        if *self == Self::OutputFirst && sheet.len() != 390 {
            return Err(Refusal::Output);
        }
        Reference.copy(&self.seen_draft(draft), sheet)
    }

    fn pretest(&self, draft: &[u8]) -> Result<Option<Broken>, Refusal> {
        let answer = Reference.pretest(draft);
        match (self, answer) {
            (Self::NeverNamed, Ok(Some(_))) => Ok(None),
            (Self::LastNamed, Ok(Some(_))) => last_named(draft),
            (Self::Named27, Ok(None)) if breaks_27(draft) => {
                let (field, rule) = (102, 27);
                Ok(Some(Broken { field, rule }))
            }
            (Self::Fieldless6, Ok(Some(Broken { rule: 6, .. }))) => {
                let (field, rule) = (0, 6);
                Ok(Some(Broken { field, rule }))
            }
            _ => answer,
        }
    }

    fn entry(&self, field: u8, place: usize, dates: Dates) -> Result<Option<Vec<u8>>, Refusal> {
        let dates = self.seen_dates(dates);
        match (self, field, place) {
            (Self::NextEntry, ..) => Reference.entry(field, place.saturating_add(1), dates),
            (Self::DoubleZeroFirst, 106 | 108 | 109, 0 | 1) => {
                Reference.entry(field, 1 - place, dates)
            }
            (Self::FieldBefore12, ..) if !FIELDS.contains(&field) => Err(Refusal::UnknownField),
            (Self::EveryStatus, 101, _) if dates.fit() => {
                Reference.entry(101, place, Dates::PROGRAM.allowing([true; 3]))
            }
            _ => Reference.entry(field, place, dates),
        }
    }

    fn complete(&self, draft: &[u8], sheet: &mut [u8], dates: Dates) -> Result<Completed, Refusal> {
        let dates = self.seen_dates(dates);
        let answer = Reference.complete(draft, sheet, dates);
        match (self, answer) {
            (Self::Late12, Err(Refusal::Undated)) => {
                match Reference.complete(draft, &mut sheet.to_vec(), Dates::PROGRAM) {
                    broken @ Err(Refusal::Broken { .. }) => broken,
                    _ => answer,
                }
            }
            // A draft that 02 completes is completed by 08, too.
            (Self::End02 | Self::Never02, Ok(_) | Err(Refusal::NoFilling { .. }))
                if is_blank(draft, 101) && dates.allowed()[0] =>
            {
                let last02 = day_before(dates.order);
                let without = Reference.complete(draft, sheet, Dates { last02, ..dates });
                match self {
                    Self::End02 => without.or(answer),
                    _ => without,
                }
            }
            (Self::CountAnew, Ok(completed)) => Ok(Completed {
                count: (completed.count - 1) % 48 + 1,
                ..completed
            }),
            (Self::Blank15, Ok(completed)) if text(sheet, 15).is_empty() => Ok(Completed {
                set: completed.set | 2,
                ones: completed.ones + 1,
                ..completed
            }),
            (Self::WrittenAnyway, Err(Refusal::NoFilling { .. })) => {
                sheet.copy_from_slice(&Texts::BLANK.sheet());
                answer
            }
            _ => answer,
        }
    }

    fn quick(&self, draft: &[u8], sheet: &mut [u8], dates: Dates) -> Quickened {
        let answer = Reference.quick(draft, sheet, dates);
        let mut completed = answer.completed;
        if !matches!(completed, Ok(_) | Err(Refusal::NoFilling { .. })) {
            return answer;
        }
        if let (Self::Uncounted, Ok(Completed { count, .. }) | Err(Refusal::NoFilling { count })) =
            (self, &mut completed)
        {
            let others = VARYING.into_iter().filter(|&field| field != 101);
            let blank = others.filter(|&field| is_blank(draft, field));
            let each: usize = blank.map(|field| cases::list(field).len()).product();
            *count -= answer.skipped * each;
        }
        Quickened {
            completed,
            skipped: self.changed_skips(draft, dates, answer, sheet),
        }
    }

    fn take_up(&self, draft: &mut [u8], sheet: &[u8], set: u16) -> Result<(), Refusal> {
        let before = draft.to_vec();
        let set = self.seen_set(draft, set);
        let sheet = &self.seen_proposal(sheet, set)[..];
        let answer = Reference.take_up(draft, sheet, set);
        match (self, answer) {
            (Self::SizeFirst, Err(Refusal::Malformed)) if sheet.len() != 390 => {
                Err(Refusal::Output)
            }
            (Self::FirstRevision, Ok(())) => {
                let had = |slot: &usize| revision_in(&before, *slot) > 0;
                for slot in slots(set).filter(had) {
                    let slot = DRAFT_SLOT_SIZE * slot..DRAFT_SLOT_SIZE * (slot + 1);
                    draft[slot.clone()].copy_from_slice(&before[slot]);
                }
                answer
            }
            (Self::TakenUpAsClient, Ok(())) => {
                as_the_clients(draft, set);
                answer
            }
            (_, Err(Refusal::NotTakenUp { field })) => {
                self.changed_refusal(draft, sheet, set, field)
            }
            _ => answer,
        }
    }

    fn write_lines(&self, sheet: &[u8], dates: Dates, buffer: &mut [u8]) -> Result<usize, Refusal> {
        self.changed_line_writing(sheet, dates, buffer)
    }

    fn read_lines(&self, block: &[u8], sheet: &mut [u8]) -> Result<(), Refusal> {
        self.changed_line_reading(block, sheet)
    }

    fn charge(&self, amount: u64, rate: u64, least: u64, greatest: u64) -> Result<u64, Refusal> {
        if *self == Self::Rate10001 && rate == RATE_MAX + 1 {
            return Reference.charge(amount, RATE_MAX, least, greatest);
        }
        let charge = Reference.charge(amount, rate, least, greatest)?;
        let rounded = |more| (amount * rate + more) / 10_000;
        match self {
            Self::RoundedDown => Ok(rounded(0).clamp(least, greatest)),
            Self::HalvesDownward => Ok(rounded(4_999).clamp(least, greatest)),
            Self::GreatestAmount if amount == KOPECKS_MAX => Err(Refusal::Tariff),
            Self::EqualLimits if least == greatest => Err(Refusal::Tariff),
            Self::NotRaised => Ok(rounded(5_000).min(greatest)),
            _ => Ok(charge),
        }
    }
    fn part(&self, amount: u64, days: u32, year: u32) -> Result<Part, Refusal> {
        let part = Reference.part(amount, days, year)?;
        match self {
            Self::WholeYear if days == year => Err(Refusal::YearPart),
            Self::RemainderBy365 => Ok(Part {
                remainder: (amount * u64::from(days) % 365) as u32,
                ..part
            }),
            _ => Ok(part),
        }
    }

    fn shares(
        &self,
        amount: u64,
        year: u32,
        periods: &[u32],
        places: &mut [u64; SHARE_PLACES],
    ) -> Result<(), Refusal> {
        let before = *places;
        let seen = self.seen_periods(year, periods);
        let answer = Reference.shares(amount, year, &seen, places);
        match (self, answer) {
            (Self::ShareByItself, Ok(())) => {
                for (place, &days) in places.iter_mut().zip(periods) {
                    *place = amount * u64::from(days) / u64::from(year);
                }
            }
            (Self::PastNotWritten, Ok(())) => {
                let past = periods.len();
                places[past..].copy_from_slice(&before[past..]);
            }
            (Self::PlacesCleared, Err(_)) => places.fill(0),
            _ => {}
        }
        answer
    }

    fn pool(&self, register: &[u8], amount: u64, output: &mut [u8]) -> Result<usize, Refusal> {
        let before = output.to_vec();
        let pooling = Pooling {
            register: register.to_vec(),
            amount,
        };
        let answer = Reference.pool(register, amount, output);
        match (self, answer) {
            (Self::OtherSign, Err(Refusal::Discrepancy { difference })) => {
                let difference = -difference;
                Err(Refusal::Discrepancy { difference })
            }
            (Self::WrittenBefore17, Err(Refusal::Discrepancy { .. })) => {
                let total = pooling.total() as u64;
                Reference.pool(register, total, output).and(answer)
            }
            (Self::Begins00, Err(Refusal::Register)) => {
                let mut lines: Vec<Line> = pooling.lines().collect();
                let begins = |line: &&mut Line| {
                    line.inn.starts_with(b"00") && {
                        let weights = cases::inn_weights(12);
                        let digits = line.inn.iter().all(u8::is_ascii_digit);
                        digits && weights.iter().all(|weights| fits(&line.inn, weights))
                    }
                };
                let seen = lines.iter_mut().filter(begins);
                seen.for_each(|line| line.inn = *b"781023456779");
                Reference.pool(&Pooling::new(&lines).register, amount, output)
            }
            (Self::RegisterFirst, Err(Refusal::Output)) => {
                let enough = &mut [0; POOL_SIZE];
                match Reference.pool(register, amount, enough) {
                    Err(Refusal::Register) => Err(Refusal::Register),
                    _ => answer,
                }
            }
            (Self::LongOutput, Ok(_)) if output.len() > POOL_SIZE => {
                output.copy_from_slice(&before);
                Err(Refusal::Output)
            }
            (Self::SumAsALine, Ok(count)) => {
                let pooled = output[..LINE_SIZE * count].as_chunks().0.iter();
                if pooled.map(Line::of).any(|line| line.kopecks > KOPECKS_MAX) {
                    output.copy_from_slice(&before);
                    return Err(Refusal::Register);
                }
                answer
            }
            (_, Ok(count)) => Ok(self.made_pool(&pooling, count, output, &before)),
            _ => answer,
        }
    }

    fn leave(&self, queue: &Queue, places: &mut [u32; PAYMENT_PLACES]) -> Result<Paid, Refusal> {
        let before = *places;
        let seen = self.seen_queue(queue);
        let zeros = seen.arrivals.iter().filter(|&&arrival| arrival == 0);
        let two_zeros = *self == Self::TwoZeros && zeros.count() == 2;
        let answer = Reference.leave(&seen, places);
        let equal = |arrivals: &[u32]| {
            let later = |place| arrivals[place + 1..].contains(&arrivals[place]);
            (0..arrivals.len()).any(later)
        };
        let count = seen.arrivals.len();
        match (self, answer) {
            (Self::EqualFirst, Err(Refusal::Queue)) if equal(&seen.arrivals) => {
                Err(Refusal::EqualArrivals)
            }
            (Self::TwoZeros, Err(Refusal::EqualArrivals)) if two_zeros => {
                let mut one = seen;
                let zero = one.arrivals.iter().position(|&arrival| arrival == 0);
                one.arrivals[zero.unwrap_or_default()] = 1_234_567;
                Reference.leave(&one, places)
            }
            (Self::ClearedBy19, Err(Refusal::EqualArrivals)) => {
                places.fill(0);
                answer
            }
            (Self::PlacePastLast, Ok(_)) if count < PAYMENT_PLACES => {
                places[count] = before[count];
                answer
            }
            (
                Self::ArrivalFirst
                | Self::PriorityAlone
                | Self::SignedArrivals
                | Self::LaterPaid
                | Self::ExactWaits,
                Ok(_),
            ) => {
                let mut payments = seen.payments().unwrap_or_default();
                let paid = self.changed_order(seen.balance, &mut payments);
                for (place, payment) in places.iter_mut().zip(payments) {
                    *place = payment.arrival;
                }
                Ok(paid)
            }
            _ => answer,
        }
    }
}

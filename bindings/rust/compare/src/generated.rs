//! Generated cases, one after another.

use cases::{accepted_at, blanked, budget_at, disturb_at, size_near};
use cases::{charge, parting, pool_size, pooling, queue, sharing};
use cases::{class_a, damaged_block, lines_of};
use cases::{damaged_draft, damaged_message, damaged_sheet, Draft, Pooling};
use cases::{day_after, day_before, fit_dates, refused_dates, Dates};
use cases::{message_of_any, message_of_wrong_parts, of_both_parties};
use cases::{Random, Text, Texts, ALL_STATUSES, FIELDS};
use cases::{DRAFT_SIZE, DRAFT_SLOT_SIZE, HEAD_SIZE_2, LENGTH_PLACE};
use kieselbrot::{Message, Party, Version};

use crate::comparison::{same, Comparison, Difference, Lent};
use crate::library::Library;
use crate::proposals::Proposal;
use crate::{blocks, fillings, streams};

type Outcome = Result<(), Difference>;

/// One case: mostly one call, sometimes a list of them.
pub fn case<L: Library>(comparison: &mut Comparison<'_, L>, random: &mut Random) -> Outcome {
    match random.below(282) {
        0..80 => check(comparison, random),
        80..100 => read(comparison, random),
        100..120 => write(comparison, random),
        120..123 => fresh(comparison, random),
        123..147 => post(comparison, random),
        147..159 => copy(comparison, random),
        159..189 => complete(comparison, random),
        189..191 => complete_by_list(comparison, random),
        191..199 => {
            let dates = any_dates(random);
            streams::stream(comparison, random, dates)
        }
        199 => streams::arrangements(comparison, random, 4),
        200..210 => comparison.charge(&charge(random)),
        210..216 => comparison.part(&parting(random)),
        216..226 => {
            let sharing = sharing(random);
            let before = std::array::from_fn(|_| random.number());
            comparison.shares(&sharing, &before)
        }
        226..236 => {
            let pooling = pooling(random);
            let before = pool_output(random, &pooling);
            comparison.pool(&pooling, &before)
        }
        236..248 => {
            let queue = queue(random);
            let before = std::array::from_fn(|_| random.number() as u32);
            comparison.leave(&queue, &before)
        }
        248..252 => take_up_proposed(comparison, random),
        252..256 => take_up(comparison, random),
        256..262 => write_lines(comparison, random),
        262..268 => read_lines(comparison, random),
        268..272 => origins(comparison, random),
        272..278 => broken_rules(comparison, random),
        _ => entry(comparison, random),
    }
}

/// An output for pooled lines: any bytes, one byte everywhere, or lines of the register.
fn pool_output(random: &mut Random, pooling: &Pooling) -> Lent {
    let size = pool_size(random);
    let mut held: Vec<u8> = match random.below(4) {
        0 => vec![random.byte()],
        1 if !pooling.register.is_empty() => pooling.register.clone(),
        _ => (0..100)
            .flat_map(|_| random.number().to_ne_bytes())
            .collect(),
    };
    held = held.into_iter().cycle().take(size).collect();
    Lent::new(&held)
}

/// Dates, mostly such as 12 does not refuse.
fn any_dates(random: &mut Random) -> Dates {
    match random.percent(10) {
        true => refused_dates(random),
        false => fit_dates(random),
    }
}

/// The dates to ask at, of an order that was made at these: mostly the same, or a day off.
fn asked(random: &mut Random, dates: Dates) -> Dates {
    let order = dates.order;
    match random.below(10) {
        0 | 1 => any_dates(random),
        2 => Dates {
            order: random.pick(&[day_before, day_after])(order),
            ..dates
        },
        _ => dates,
    }
}

/// An order that keeps the rules at these dates, or one with a few texts changed.
fn order(random: &mut Random, dates: Dates) -> Texts {
    let mut texts = accepted_at(random, dates);
    for _ in 0..random.pick(&[0, 1, 1, 1, 2, 3]) {
        disturb_at(random, &mut texts, dates);
    }
    texts
}

/// An order to complete: blanks, and perhaps a text changed; and the dates to ask at.
fn open_order(random: &mut Random) -> (Texts, Dates) {
    let dates = fit_dates(random);
    let mut texts = if random.percent(8) {
        accepted_at(random, dates)
    } else {
        blanked(budget_at(random, dates), random.below(1024))
    };
    if random.percent(40) {
        disturb_at(random, &mut texts, dates);
    }
    (texts, asked(random, dates))
}

fn check<L: Library>(comparison: &mut Comparison<'_, L>, random: &mut Random) -> Outcome {
    let dates = fit_dates(random);
    let sheet = order(random, dates).sheet();
    let dates = asked(random, dates);
    match random.below(20) {
        0..3 => comparison.check(&damaged_sheet(random, sheet), dates),
        3 => comparison.check(resized(random, &sheet).bytes(), dates),
        _ => comparison.check(&sheet, dates),
    }
    .map(drop)
}

/// An order with many texts changed, of which all broken rules are asked for.
fn broken_rules<L: Library>(comparison: &mut Comparison<'_, L>, random: &mut Random) -> Outcome {
    let dates = fit_dates(random);
    let mut texts = accepted_at(random, dates);
    for _ in 0..2 + random.below(12) {
        disturb_at(random, &mut texts, dates);
    }
    comparison.check(&texts.sheet(), dates).map(drop)
}

/// Messages end to end: few or many, on few fields, some unreadable, sometimes cut off.
fn origins<L: Library>(comparison: &mut Comparison<'_, L>, random: &mut Random) -> Outcome {
    let fields = [random.pick(&FIELDS), random.pick(&FIELDS)];
    let size = random.pick(&[0, 1, 2, 3, 5, 8, 20]);
    let mut input = Vec::new();
    for _ in 0..size {
        let message = match random.below(10) {
            0 => any_message(random),
            1 => message_of_wrong_parts(random),
            _ => {
                let (field, revision) = (random.pick(&fields), 1 + random.below(3) as u32);
                let text = random.pick(&[&b"0"[..], b"00", b""]);
                message_of_any(random, field, revision, text)
            }
        };
        input.extend(message);
    }
    if random.percent(20) {
        input.truncate(random.below(input.len() + 1));
    }
    comparison.origins(&input)
}

/// An entry of a list: mostly within the longest, or at any place.
fn entry<L: Library>(comparison: &mut Comparison<'_, L>, random: &mut Random) -> Outcome {
    let field = any_field(random);
    let place = match random.percent(95) {
        true => random.below(26),
        false => random.number() as usize,
    };
    comparison.entry(field, place, any_dates(random))
}

/// The bytes cut to a size near the right one, or lengthened with zeros.
fn resized(random: &mut Random, bytes: &[u8]) -> Lent {
    let mut resized = bytes.to_vec();
    resized.resize(size_near(random, bytes.len()), 0);
    Lent::new(&resized)
}

fn any_field(random: &mut Random) -> u8 {
    if random.percent(90) {
        random.pick(&FIELDS)
    } else {
        random.byte()
    }
}

fn any_revision(random: &mut Random) -> u32 {
    let any = random.number() as u32;
    let high = random.pick(&[1 << 31, u32::MAX - 1, u32::MAX]);
    random.pick(&[0, 1, 1, 2, 2, 255, 256, high, high, any, any])
}

/// A text of any bytes, mostly short enough.
fn any_text(random: &mut Random) -> Text {
    let length = match random.below(10) {
        0 => 24 + random.below(4),
        1 => 0,
        _ => random.below(26),
    };
    let mut text = Text::BLANK;
    (0..length).for_each(|_| text.push(random.byte()));
    text
}

/// A message, readable or not.
fn any_message(random: &mut Random) -> Vec<u8> {
    let field = any_field(random);
    let revision = any_revision(random);
    let text = any_text(random);
    let whole = message_of_any(random, field, revision, &text);
    match random.below(10) {
        0..3 => damaged_message(random, whole),
        3 | 4 => message_of_wrong_parts(random),
        _ => whole,
    }
}

fn read<L: Library>(comparison: &mut Comparison<'_, L>, random: &mut Random) -> Outcome {
    let bytes = any_message(random);
    let Ok(read) = comparison.read(&bytes)? else {
        return Ok(());
    };
    // What reads is what the writer makes.
    let before = Lent::filled(bytes.len(), 0);
    let (_, written) = comparison.write(&read, before)?;
    let input = || "what was read".to_owned();
    same("write", written.bytes(), &bytes[..], input)
}

/// A version and a party, mostly such as go together.
fn any_version(random: &mut Random) -> (Version, Party) {
    let any = random.byte();
    let version = random.pick(&[1, 1, 1, 2, 2, 2, 2, 2, 0, 3, any]);
    let party = random.pick(&[1, 1, 1, 2, 2, 2, 2, 2, 0, 3, any]);
    (Version(version), Party(party))
}

fn write<L: Library>(comparison: &mut Comparison<'_, L>, random: &mut Random) -> Outcome {
    let (version, party) = any_version(random);
    let text = any_text(random);
    let message = Message {
        version,
        party,
        field: any_field(random),
        revision: any_revision(random),
        text: &text,
    };
    let size = size_near(random, HEAD_SIZE_2 + text.len());
    let before = Lent::filled(size, 0xEE);
    let (answer, buffer) = comparison.write(&message, before)?;
    let Ok(length) = answer else {
        return Ok(());
    };
    // What was written reads back.
    let read = comparison.read(&buffer.bytes()[..length])?;
    let input = || "what was written".to_owned();
    same("read", read, Ok(message), input)
}

fn fresh<L: Library>(comparison: &mut Comparison<'_, L>, random: &mut Random) -> Outcome {
    let size = size_near(random, DRAFT_SIZE);
    comparison
        .fresh(Lent::filled(size, random.byte()))
        .map(drop)
}

/// Revisions and parties for a draft: a blank may have revision 0.
fn draft(random: &mut Random, texts: &Texts) -> Draft {
    let draft = texts.draft(|text| {
        let revision = any_revision(random);
        if text.is_empty() {
            revision
        } else {
            revision.max(1)
        }
    });
    of_both_parties(random, draft)
}

/// A draft, mostly well-formed, and mostly of the right size.
fn any_draft(random: &mut Random, texts: &Texts) -> Lent {
    let draft = draft(random, texts);
    match random.below(20) {
        0 | 1 => Lent::new(&damaged_draft(random, draft)),
        2 => resized(random, &draft),
        _ => Lent::new(&draft),
    }
}

/// A message for this draft, of either party: about the slot's own revision and text.
fn message_for(random: &mut Random, draft: &[u8]) -> Vec<u8> {
    let slot = random.below(FIELDS.len());
    let place = DRAFT_SLOT_SIZE * slot;
    let Some(bytes) = draft.get(place..place + DRAFT_SLOT_SIZE) else {
        return any_message(random);
    };
    let stored = u32::from_be_bytes([bytes[0], bytes[1], bytes[2], bytes[3]]);
    let step = random.pick(&[0, 0, 0, 1, u32::MAX]);
    let held = &bytes[LENGTH_PLACE..];
    let mut text = Text::new(&held[1..][..usize::from(held[0].min(25))]);
    match random.below(6) {
        0 => text.push(0),
        1 => text.pop(),
        2 => text = any_text(random),
        _ => {}
    }
    message_of_any(random, FIELDS[slot], stored.wrapping_add(step), &text)
}

fn post<L: Library>(comparison: &mut Comparison<'_, L>, random: &mut Random) -> Outcome {
    let texts = order(random, Dates::PROGRAM);
    let mut draft = any_draft(random, &texts);
    let message = match random.percent(70) {
        true => message_for(random, draft.bytes()),
        false => any_message(random),
    };
    let _ = comparison.post(&mut draft, &message)?;
    Ok(())
}

/// A sheet to write into: mostly of the right size, whatever it holds.
fn output(random: &mut Random) -> Lent {
    let size = match random.percent(15) {
        true => size_near(random, 390),
        false => 390,
    };
    Lent::filled(size, random.byte())
}

fn copy<L: Library>(comparison: &mut Comparison<'_, L>, random: &mut Random) -> Outcome {
    let texts = order(random, Dates::PROGRAM);
    let draft = any_draft(random, &texts);
    let before = output(random);
    comparison.copy(draft.bytes(), before).map(drop)
}

fn complete<L: Library>(comparison: &mut Comparison<'_, L>, random: &mut Random) -> Outcome {
    let (texts, dates) = open_order(random);
    let draft = any_draft(random, &texts);
    let before = output(random);
    comparison.complete(draft.bytes(), before, dates).map(drop)
}

fn complete_by_list<L: Library>(
    comparison: &mut Comparison<'_, L>,
    random: &mut Random,
) -> Outcome {
    let (texts, dates) = open_order(random);
    let draft = draft(random, &texts);
    let mut slots = draft.chunks_exact(DRAFT_SLOT_SIZE);
    if slots.any(|slot| slot[LENGTH_PLACE] > 25) {
        let before = Lent::filled(390, 0);
        return comparison.complete(&draft, before, dates).map(drop);
    }
    fillings::complete(comparison, &texts, &draft, dates)
}

/// A part of what is proposed to a draft, taken up and posted by hand.
fn take_up_proposed<L: Library>(
    comparison: &mut Comparison<'_, L>,
    random: &mut Random,
) -> Outcome {
    let dates = fit_dates(random);
    let any = random.below(1024);
    let blanks = random.pick(&[any, any, any, 1023]);
    let order = blanked(budget_at(random, dates), blanks);
    let draft = Lent::new(&draft(random, &order));
    let Some(proposal) = Proposal::of(comparison, &draft, dates)? else {
        return Ok(());
    };
    let open = proposal.below_the_greatest();
    let set = random.pick(&[proposal.set(), open, open]);
    proposal.take_up(comparison, part_of(random, set))?;
    let by_hand = part_of(random, open);
    proposal.post_by_hand(comparison, random, by_hand)
}

/// Any part of a set.
fn part_of(random: &mut Random, set: u16) -> u16 {
    let any = set & random.number() as u16;
    random.pick(&[set, any, any, any])
}

/// Values of any sheet, to any draft.
fn take_up<L: Library>(comparison: &mut Comparison<'_, L>, random: &mut Random) -> Outcome {
    let order = order(random, Dates::PROGRAM);
    let any = random.number() as u16;
    let open = random.pick(&[any, any, any, u16::MAX]);
    let mut draft = any_draft(random, &without(order, open));
    let sheet = any_sheet(random, &order);
    let set = any_set(random, open);
    let _ = comparison.take_up(&mut draft, sheet.bytes(), set)?;
    Ok(())
}

/// The order with the slots of this set blank.
fn without(order: Texts, set: u16) -> Texts {
    let blank = |slot: &usize| set >> slot & 1 == 1;
    let slots = (0..FIELDS.len()).filter(blank);
    slots.fold(order, |order, slot| order.without(&[FIELDS[slot]]))
}

/// A sheet to take up from or to write lines of: the order's own, with some of it blank, damaged, or of another
/// size.
fn any_sheet(random: &mut Random, order: &Texts) -> Lent {
    let sheet = order.sheet();
    match random.below(10) {
        0 => Lent::new(&damaged_sheet(random, sheet)),
        1 => resized(random, &sheet),
        2 | 3 => {
            let few = random.number() & random.number() & random.number();
            Lent::new(&without(*order, few as u16).sheet())
        }
        _ => Lent::new(&sheet),
    }
}

/// A set for a draft with these slots blank: fields without a list are mostly left out.
fn any_set(random: &mut Random, open: u16) -> u16 {
    // Slots 0, 1, 2, 5 and 8.
    const LISTLESS: u16 = 0x0127;
    let fit = open & !LISTLESS & 0x7FFF;
    let any = random.number() as u16;
    let other = 1 << random.below(16);
    match random.below(8) {
        0 => any,
        1 => fit,
        2 | 3 => fit & any | other,
        _ => fit & any,
    }
}

/// MT103 lines of a sheet, mostly of class A, into a buffer about as long.
fn write_lines<L: Library>(comparison: &mut Comparison<'_, L>, random: &mut Random) -> Outcome {
    let dates = fit_dates(random);
    let texts = match random.percent(70) {
        true => payment_to_the_treasury(random, &dates.statuses()),
        false => order(random, dates),
    };
    let dates = asked(random, dates);
    let sheet = any_sheet(random, &texts);
    let size = match random.below(4) {
        0 => random.below(201),
        1 => size_near(random, lines_of(&texts).len()),
        _ => 137 + random.below(64),
    };
    let before = Lent::filled(size, random.byte());
    blocks::write(comparison, sheet.bytes(), dates, &before)
}

/// An order of class A with one of these statuses, or one that has a date.
fn payment_to_the_treasury(random: &mut Random, statuses: &[&'static str]) -> Texts {
    let any = random.pick(statuses);
    let dated = random.pick(&["02", "32", "33"]);
    let status = random.pick(&[any, any, dated]);
    class_a(random, status)
}

/// A block of MT103 lines, or one near it, into a sheet.
fn read_lines<L: Library>(comparison: &mut Comparison<'_, L>, random: &mut Random) -> Outcome {
    let mut texts = match random.percent(60) {
        true => payment_to_the_treasury(random, &ALL_STATUSES),
        false => order(random, Dates::PROGRAM),
    };
    // With any account: the reader asks no rule of both.
    if random.percent(20) {
        texts.set(101, Text::new(random.pick(&ALL_STATUSES).as_bytes()));
    }
    let mut block = lines_of(&texts);
    if random.percent(60) {
        block = damaged_block(random, block);
    }
    let before = output(random);
    blocks::read(comparison, &block, &before)
}

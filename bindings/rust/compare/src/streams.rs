//! Lists of messages, and the draft that posting them ends in.

use cases::{draft_after, message_2, message_of, messages_at, Dates, Draft, Given, Random, FIELDS};
use cases::{DRAFT_SIZE, DRAFT_SLOT_SIZE, PARTIES};

use kieselbrot::Refusal;

use crate::comparison::{hex, same, Comparison, Difference, Lent};
use crate::library::Library;

/// What the readable messages of a list say.
fn readable<'m, L: Library>(
    comparison: &mut Comparison<'_, L>,
    list: &'m [Vec<u8>],
) -> Outcome<Vec<Given<'m>>> {
    let mut readable = Vec::new();
    for bytes in list {
        let message = comparison.read(bytes)?;
        readable.extend(message.map(|message| Given {
            field: message.field,
            revision: message.revision,
            party: message.party.0,
            text: message.text,
        }));
    }
    Ok(readable)
}

/// The draft that a list of postings ends in.
fn outcome<L: Library>(comparison: &mut Comparison<'_, L>, list: &[Vec<u8>]) -> Outcome<Draft> {
    let readable = readable(comparison, list)?;
    let draft = draft_after(&readable);
    comparison.reached.ended(&readable, &draft);
    Ok(draft)
}

type Outcome<T> = Result<T, Difference>;

/// Posts a list to a fresh draft.
fn post_all<'m, L: Library>(
    comparison: &mut Comparison<'_, L>,
    list: impl IntoIterator<Item = &'m Vec<u8>>,
) -> Outcome<Lent> {
    let mut draft = comparison.fresh(Lent::filled(DRAFT_SIZE, 0xEE))?;
    for bytes in list {
        let _ = comparison.post(&mut draft, bytes)?;
    }
    Ok(draft)
}

/// Posts a list of any messages, some unreadable, repeated and clashing, then
/// copies the draft and completes it at these dates.
pub fn stream<L: Library>(
    comparison: &mut Comparison<'_, L>,
    random: &mut Random,
    dates: Dates,
) -> Outcome<()> {
    let list = messages_at(random, dates);
    let draft = post_list(comparison, &list)?;
    comparison.copy(draft.bytes(), Lent::filled(390, 0xEE))?;
    let before = Lent::filled(390, 0xEE);
    comparison.complete(draft.bytes(), before, dates).map(drop)
}

/// Posts every list of up to four messages of both parties, with equal revisions and other
/// texts among them.
pub fn every_list<L: Library>(comparison: &mut Comparison<'_, L>) -> Outcome<()> {
    let mut letters = Vec::new();
    for party in PARTIES {
        letters.push(message_2(party, 109, 1, b"0"));
        for (revision, text) in [(1, b"17"), (2, b"17"), (2, b"18")] {
            letters.push(message_2(party, 108, revision, text));
        }
    }
    for size in 1..=4 {
        for number in 0..letters.len().pow(size) {
            let letter = |place| number / letters.len().pow(place) % letters.len();
            let list: Vec<Vec<u8>> = (0..size)
                .map(|place| letters[letter(place)].clone())
                .collect();
            post_list(comparison, &list)?;
        }
    }
    Ok(())
}

/// Posts a list to a fresh draft, which must end as R-8 says.
fn post_list<L: Library>(comparison: &mut Comparison<'_, L>, list: &[Vec<u8>]) -> Outcome<Lent> {
    let draft = post_all(comparison, list)?;
    let expected = outcome(comparison, list)?;
    same_end(&draft, &expected, list)?;
    one_party(comparison, list, &draft)?;
    comparison.origins(&list.concat())?;
    origins_hold(comparison, list, &draft)?;
    Ok(draft)
}

/// Of a list whose messages all end where their lengths say, each slot of the draft holds
/// what its origin, posted alone, leaves there.
fn origins_hold<L: Library>(
    comparison: &mut Comparison<'_, L>,
    list: &[Vec<u8>],
    draft: &Lent,
) -> Outcome<()> {
    let is_framed = |bytes: &Vec<u8>| comparison.library().read(bytes) != Err(Refusal::Length);
    if !list.iter().all(is_framed) {
        return Ok(());
    }
    let origins = comparison.library().origins(&list.concat());
    for (slot, origin) in origins.into_iter().enumerate() {
        let own = origin.checked_sub(1).map(|place| &list[place as usize]);
        let alone = post_all(comparison, own)?;
        let input = || format!("slot {slot} with origin {origin}, {}", shown(list));
        same("origins", held(draft, slot), held(&alone, slot), input)?;
    }
    Ok(())
}

/// The field and the party of a readable message.
type Author = Option<(u8, u8)>;

/// Of a list that ended in this draft, a field that only one party gave ends the same
/// without the messages of the other.
fn one_party<L: Library>(
    comparison: &mut Comparison<'_, L>,
    list: &[Vec<u8>],
    draft: &Lent,
) -> Outcome<()> {
    let mut authors: Vec<Author> = Vec::new();
    for bytes in list {
        let message = comparison.read(bytes)?.ok();
        authors.push(message.map(|message| (message.field, message.party.0)));
    }
    for party in PARTIES {
        let is_own = |author: &Author| author.is_none_or(|(_, by)| by == party);
        if authors.iter().all(is_own) {
            continue;
        }
        let own = list
            .iter()
            .zip(&authors)
            .filter(|(_, author)| is_own(author));
        let alone = post_all(comparison, own.map(|(bytes, _)| bytes))?;
        for slot in slots_of(&authors, party) {
            let input = || format!("slot {slot} of party {party} alone, {}", shown(list));
            same("post", held(draft, slot), held(&alone, slot), input)?;
            comparison.reached.alone(party);
        }
    }
    Ok(())
}

/// The slots of the fields that this party gave, and the other did not.
fn slots_of(authors: &[Author], party: u8) -> impl Iterator<Item = usize> + '_ {
    let given = move |slot: &usize, by| authors.contains(&Some((FIELDS[*slot], by)));
    let other = PARTIES.into_iter().find(|&other| other != party);
    (0..FIELDS.len())
        .filter(move |slot| given(slot, party) && !other.is_some_and(|other| given(slot, other)))
}

/// The bytes of a slot.
fn held(draft: &Lent, slot: usize) -> &[u8] {
    &draft.bytes()[DRAFT_SLOT_SIZE * slot..][..DRAFT_SLOT_SIZE]
}

/// A list of messages.
fn shown(list: &[Vec<u8>]) -> String {
    let messages: Vec<String> = list.iter().map(|bytes| hex(bytes)).collect();
    format!("the list {}", messages.join(", "))
}

fn same_end(draft: &Lent, expected: &[u8], list: &[Vec<u8>]) -> Outcome<()> {
    same("post", draft.bytes(), expected, || shown(list))
}

/// Posts every arrangement of a small list without clashes; all must end in one
/// draft.
pub fn arrangements<L: Library>(
    comparison: &mut Comparison<'_, L>,
    random: &mut Random,
    size: usize,
) -> Outcome<()> {
    let mut list = without_clashes(random, size);
    let expected = outcome(comparison, &list)?;
    let mut swaps = vec![0; size];
    let mut place = 0;
    same_end(&post_all(comparison, &list)?, &expected, &list)?;
    // Heap's algorithm: each step swaps two.
    while place < size {
        if swaps[place] < place {
            let other = if place % 2 == 0 { 0 } else { swaps[place] };
            list.swap(other, place);
            same_end(&post_all(comparison, &list)?, &expected, &list)?;
            swaps[place] += 1;
            place = 0;
        } else {
            swaps[place] = 0;
            place += 1;
        }
    }
    Ok(())
}

/// A list on few fields in which a field's revision of a party has one text; some
/// repeated, some unreadable.
fn without_clashes(random: &mut Random, size: usize) -> Vec<Vec<u8>> {
    let fields = [random.pick(&FIELDS), random.pick(&FIELDS)];
    (0..size).map(|_| clashless(random, &fields)).collect()
}

/// A message on one of these fields whose text follows from field, revision and party;
/// sometimes of an unknown version.
fn clashless(random: &mut Random, fields: &[u8]) -> Vec<u8> {
    let field = random.pick(fields);
    let revision = 1 + random.below(4) as u32;
    let party = random.pick(&PARTIES);
    let text = [field, revision as u8, party];
    // Both parties give revision 4 the same text.
    let text = match revision {
        4 => &text[..1],
        _ => &text[3 - revision as usize % 3..],
    };
    let mut message = message_of(random, party, field, revision, text);
    if random.percent(15) {
        message[2] = 3;
    }
    message
}

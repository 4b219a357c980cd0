//! Lists of messages.

use crate::damage::damaged_message;
use crate::dates::Dates;
use crate::orders::{accepted_at, blanked, budget_at};
use crate::parties::message_of_any;
use crate::random::Random;
use crate::texts::FIELDS;

/// An order's messages of both parties with others among them, in any order: corrections,
/// repeated and clashing ones, unreadable ones.
pub fn messages(random: &mut Random) -> Vec<Vec<u8>> {
    messages_at(random, Dates::PROGRAM)
}

/// The same at other dates.
pub fn messages_at(random: &mut Random, dates: Dates) -> Vec<Vec<u8>> {
    let texts = if random.percent(50) {
        blanked(budget_at(random, dates), random.below(1024))
    } else {
        accepted_at(random, dates)
    };
    let mut list: Vec<Vec<u8>> = Vec::new();
    for field in FIELDS {
        if random.percent(95) {
            list.push(message_of_any(random, field, 2, &texts.get(field)));
        }
    }
    for _ in 0..random.below(12) {
        list.push(another(random, &list));
    }
    random.shuffle(&mut list);
    list
}

/// A message that meets one of the list, or none, or is unreadable.
fn another(random: &mut Random, list: &[Vec<u8>]) -> Vec<u8> {
    let field = random.pick(&FIELDS);
    let revision = random.pick(&[1, 1, 2, 3, 0x0100_0000, u32::MAX]);
    let text = random.pick(&[&b""[..], b"0", b"00", b"4567"]);
    let known = (!list.is_empty()).then(|| list[random.below(list.len())].clone());
    match (random.below(5), known) {
        (0, Some(known)) => known,
        (1, Some(known)) => damaged_message(random, known),
        _ => message_of_any(random, field, revision, text),
    }
}

//! Sheets, drafts and messages with something wrong in their bytes.

use crate::parties::{
    DRAFT_SIZE, DRAFT_SLOT_SIZE, HEAD_SIZE_1, HEAD_SIZE_2, LENGTH_PLACE, PARTY_PLACE,
};
use crate::random::Random;
use crate::texts::{Draft, Sheet, FIELDS};

/// A size that is right, or near it, or another one that matters.
pub fn size_near(random: &mut Random, right: usize) -> usize {
    match random.below(16) {
        0 => 0,
        1 => 1,
        2 => random.below(2 * right),
        3 => right - right / 15,
        4 => right + right / 15,
        5 => random.pick(&[390, DRAFT_SIZE]),
        6 | 7 => right + 1,
        8 | 9 => right - 1,
        _ => right + random.below(5) - 2,
    }
}

/// A sheet with a wrong length, pad byte or other byte somewhere.
pub fn damaged_sheet(random: &mut Random, mut sheet: Sheet) -> Sheet {
    damage_slot(random, &mut sheet, 26);
    sheet
}

/// A draft with a wrong revision, party, length, pad byte or other byte somewhere.
pub fn damaged_draft(random: &mut Random, mut draft: Draft) -> Draft {
    let slot = DRAFT_SLOT_SIZE * random.below(FIELDS.len());
    match random.below(10) {
        0 => draft[slot..][..PARTY_PLACE].fill(0),
        1 => draft[slot..][..LENGTH_PLACE].fill(0),
        2..6 => damage_party(random, &mut draft[slot..][..DRAFT_SLOT_SIZE]),
        _ => damage_slot(random, &mut draft, DRAFT_SLOT_SIZE),
    }
    draft
}

/// Puts any party into a slot, with what it held or without.
fn damage_party(random: &mut Random, slot: &mut [u8]) {
    if random.percent(40) {
        slot.fill(0);
    }
    let any = random.byte();
    slot[PARTY_PLACE] = random.pick(&[0, 1, 2, any, any, any, any]);
}

fn damage_slot(random: &mut Random, bytes: &mut [u8], slot_size: usize) {
    let any = random.below(15);
    let slot = random.pick(&[0, any, 14]);
    let slot = &mut bytes[slot * slot_size..][slot_size - 26..slot_size];
    match random.below(4) {
        0 => slot[0] = random.pick(&[24, 25, 26, 27, 128, 255]),
        1 | 2 => damage_pad(random, slot),
        _ => slot[random.below(26)] = random.byte(),
    }
}

/// Makes a pad byte nonzero: the first, the last or one between.
fn damage_pad(random: &mut Random, slot: &mut [u8]) {
    let first = 1 + usize::from(slot[0]);
    if first < slot.len() {
        let between = first + random.below(slot.len() - first);
        let place = random.pick(&[first, between, slot.len() - 1]);
        slot[place] = random.pick(&[1, b'0', 128, 255]);
    }
}

/// A message with a wrong length, version, party, field, revision or size.
pub fn damaged_message(random: &mut Random, mut message: Vec<u8>) -> Vec<u8> {
    let head_size = match message.get(2) {
        Some(2) => HEAD_SIZE_2,
        _ => HEAD_SIZE_1,
    };
    match random.below(9) {
        0 => message.truncate(random.below(message.len() + 1)),
        1 => message.push(random.byte()),
        2 => replace(&mut message, 1, random.pick(&[0, 5, 6, 7, 31, 32, 33, 255])),
        3 => replace(&mut message, 0, random.pick(&[1, 255])),
        4 => replace(&mut message, 2, random.pick(&[0, 1, 2, 3, 255])),
        // The party or the field, then the field or a byte of the revision.
        5 => replace(&mut message, 3, random.byte()),
        6 => replace(&mut message, 4, random.byte()),
        7 => message
            .iter_mut()
            .skip(head_size - 4)
            .take(4)
            .for_each(|byte| *byte = 0),
        _ => {
            let place = random.below(message.len().max(1));
            replace(&mut message, place, random.byte());
        }
    }
    message
}

fn replace(bytes: &mut [u8], place: usize, byte: u8) {
    if let Some(old) = bytes.get_mut(place) {
        *old = byte;
    }
}

//! Messages of both versions and parties that are gone through one and all.

use cases::{message, message_2, set_slot, Texts, FIELDS};
use cases::{ADVISER, CLIENT, DRAFT_SIZE, DRAFT_SLOT_SIZE, HEAD_SIZE_2, PARTIES, PARTY_PLACE};
use kieselbrot::{Message, Party, Version};

use crate::comparison::{Comparison, Difference, Lent};
use crate::library::Library;

type Outcome = Result<(), Difference>;

/// Reads a message and posts it to a copy of a draft.
fn read_and_post<L: Library>(
    comparison: &mut Comparison<'_, L>,
    draft: &[u8],
    message: &[u8],
) -> Outcome {
    let _ = comparison.read(message)?;
    let _ = comparison.post(&mut Lent::new(draft), message)?;
    Ok(())
}

/// The messages of both versions and parties with the same field, revision and text.
fn of_all(field: u8, revision: u32, text: &[u8]) -> [Vec<u8>; 3] {
    [
        message(field, revision, text),
        message_2(CLIENT, field, revision, text),
        message_2(ADVISER, field, revision, text),
    ]
}

/// All of it: heads, texts, parts that are wrong at once, meetings, drafts malformed by a
/// party.
pub fn all<L: Library>(comparison: &mut Comparison<'_, L>) -> Outcome {
    heads(comparison)?;
    texts(comparison)?;
    wrong_parts(comparison)?;
    written_parts(comparison)?;
    meetings(comparison)?;
    malformed(comparison)
}

/// Every byte of a message's head: read and posted; every version, party and field
/// written.
fn heads<L: Library>(comparison: &mut Comparison<'_, L>) -> Outcome {
    let draft = Texts::s().draft(|_| 1);
    for byte in 0..=u8::MAX {
        for whole in of_all(101, 1, b"01") {
            for place in 0..HEAD_SIZE_2 {
                let mut message = whole.clone();
                message[place] = byte;
                read_and_post(comparison, &draft, &message)?;
            }
        }
        for (version, party) in [(1, ADVISER), (2, CLIENT), (2, ADVISER), (3, CLIENT)] {
            write(comparison, [version, party, byte], 1, 2, 40)?;
            write(comparison, [version, byte, 101], 1, 2, 40)?;
            write(comparison, [byte, party, 101], 1, 2, 40)?;
        }
    }
    Ok(())
}

/// Writes a message of this version, party and field with a text of this length into a
/// buffer of this size.
fn write<L: Library>(
    comparison: &mut Comparison<'_, L>,
    [version, party, field]: [u8; 3],
    revision: u32,
    length: usize,
    size: usize,
) -> Outcome {
    let message = Message {
        version: Version(version),
        party: Party(party),
        field,
        revision,
        text: &[b'7'; 40][..length],
    };
    comparison
        .write(&message, Lent::filled(size, 0xEE))
        .map(drop)
}

/// Every length of text, with revisions at both ends: read, posted, and written into every
/// size of buffer.
fn texts<L: Library>(comparison: &mut Comparison<'_, L>) -> Outcome {
    for length in 0..=40 {
        let text = &[b'7'; 40][..length];
        for revision in [0, 1, 2, u32::MAX - 1, u32::MAX] {
            for message in of_all(109, revision, text) {
                let _ = comparison.read(&message)?;
                for stored in [1, 2, u32::MAX] {
                    let mut draft = Lent::new(&Texts::s().draft(|_| stored));
                    let _ = comparison.post(&mut draft, &message)?;
                }
            }
            for size in 0..=50 {
                for (version, party) in [(1, ADVISER), (2, CLIENT), (2, ADVISER)] {
                    write(comparison, [version, party, 109], revision, length, size)?;
                }
            }
        }
    }
    Ok(())
}

/// Versions, parties and fields that matter: right ones, those beside them, and 255.
const VERSIONS: [u8; 5] = [0, 1, 2, 3, 255];
const PARTY_BYTES: [u8; 5] = [0, CLIENT, ADVISER, 3, 255];
const FIELD_BYTES: [u8; 4] = [0, 1, 101, 255];

/// Every combination of a version, a party, a field and a revision that matter, in a
/// message of every size up to 40 bytes, with an L that is the rest, or one off: read and
/// posted.
fn wrong_parts<L: Library>(comparison: &mut Comparison<'_, L>) -> Outcome {
    let draft = Texts::s().draft(|_| 1);
    for place in 0..VERSIONS.len() * PARTY_BYTES.len() * FIELD_BYTES.len() * 2 {
        let version = VERSIONS[place % 5];
        let party = PARTY_BYTES[place / 5 % 5];
        let field = FIELD_BYTES[place / 25 % 4];
        let revision = place as u32 / 100;
        let mut whole = match version {
            1 => message(field, revision, &[b'7'; 32]),
            _ => message_2(party, field, revision, &[b'7'; 31]),
        };
        whole[2] = version;
        for size in 0..=whole.len() {
            let mut message = whole[..size].to_vec();
            for off in [0, 1, 255] {
                if let [_, length, rest @ ..] = &mut message[..] {
                    *length = (rest.len() as u8).wrapping_add(off);
                }
                read_and_post(comparison, &draft, &message)?;
            }
        }
    }
    Ok(())
}

/// The same written, with texts of 0, 25 and 26 bytes into buffers that are long enough or
/// a byte too short.
fn written_parts<L: Library>(comparison: &mut Comparison<'_, L>) -> Outcome {
    for version in VERSIONS {
        for party in PARTY_BYTES {
            for field in FIELD_BYTES {
                for revision in [0, 1] {
                    for length in [0, 25, 26] {
                        for size in [0, 7 + length, 8 + length, 9 + length] {
                            let parts = [version, party, field];
                            write(comparison, parts, revision, length, size)?;
                        }
                    }
                }
            }
        }
    }
    Ok(())
}

/// Revisions, each near another.
const REVISIONS: [u32; 8] = [
    1,
    2,
    255,
    256,
    1 << 31,
    (1 << 31) + 1,
    u32::MAX - 1,
    u32::MAX,
];

/// Every two of the revisions and of the parties, with the same text, another and none, to
/// every field.
fn meetings<L: Library>(comparison: &mut Comparison<'_, L>) -> Outcome {
    for field in FIELDS {
        for stored in REVISIONS {
            for party in PARTIES {
                let mut draft = [0; DRAFT_SIZE];
                set_slot(&mut draft, field, stored, party, b"17");
                for revision in REVISIONS {
                    for text in [&b"17"[..], b"18", b""] {
                        for message in of_all(field, revision, text) {
                            read_and_post(comparison, &draft, &message)?;
                        }
                    }
                }
            }
        }
    }
    Ok(())
}

/// Every party byte in every slot, with a revision and without.
fn malformed<L: Library>(comparison: &mut Comparison<'_, L>) -> Outcome {
    let given = Texts::s().draft(|_| 1);
    let open = Texts::BLANK.draft(|_| 0);
    let sheet = Texts::s().sheet();
    for draft in [given, open] {
        for (slot, field) in FIELDS.into_iter().enumerate() {
            for party in 0..=u8::MAX {
                let mut draft = draft;
                draft[DRAFT_SLOT_SIZE * slot + PARTY_PLACE] = party;
                let output = || Lent::filled(390, 0xEE);
                comparison.copy(&draft, output())?;
                let dates = cases::Dates::PROGRAM;
                let _ = comparison.complete(&draft, output(), dates)?;
                let _ = comparison.take_up(&mut Lent::new(&draft), &sheet, 1 << 3)?;
                for message in of_all(field, 1, b"08") {
                    let _ = comparison.post(&mut Lent::new(&draft), &message)?;
                }
            }
        }
    }
    Ok(())
}

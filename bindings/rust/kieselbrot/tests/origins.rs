//! Which message of an input each slot holds.

use cases::{message, message_2, slot_of, ADVISER, CLIENT};
use kieselbrot::{origins, FIELDS};

/// The origins of these slots; all others have none.
fn only(slots: &[(u8, u64)]) -> [u64; FIELDS.len()] {
    let mut origins = [0; FIELDS.len()];
    for &(field, number) in slots {
        origins[slot_of(field)] = number;
    }
    origins
}

#[test]
fn the_winner_of_each_slot_is_numbered() {
    let list = [
        message(108, 1, b"17"),
        message(108, 3, b"18"),
        // The same revision with another text, and again: the first stays.
        message(108, 3, b"19"),
        message(108, 3, b"18"),
        message(108, 2, b"20"),
        // Refused, and counted: an unknown field.
        message(100, 9, b"0"),
        message(109, 1, b"0"),
        message_2(CLIENT, 101, 5, b"08"),
        // The adviser's over the client's.
        message_2(ADVISER, 101, 5, b"08"),
        message_2(CLIENT, 101, 5, b"01"),
    ];
    let expected = only(&[(108, 2), (109, 7), (101, 9)]);
    assert_eq!(origins(&list.concat()), expected);
    // Behind a 2 nothing is read.
    let stopped = [&list[..2].concat()[..], &[0, 1, 1], &list[2..].concat()].concat();
    assert_eq!(origins(&stopped), only(&[(108, 2)]));
}

#[test]
fn an_input_without_messages_has_no_origins() {
    assert_eq!(origins(&[]), only(&[]));
    assert_eq!(origins(&[0]), only(&[]));
    let cut = message(108, 1, b"17");
    assert_eq!(origins(&cut[..cut.len() - 1]), only(&[]));
}

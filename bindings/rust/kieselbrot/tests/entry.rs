//! Entries of the lists of completion.

use cases::{list_at, Dates, FIELDS, LISTS};
use kieselbrot::{entry, Date, Record, Refusal, Terms};

fn asked(dates: Dates) -> Terms {
    let [first32, first33, last02] = dates.entries().map(Date);
    let record = Record {
        first32,
        first33,
        last02,
    };
    Terms::new(Date(dates.order), record)
}

/// At each of the eight lists of statuses, every field's, to its end and past it.
#[test]
fn entries_are_those_of_the_lists() {
    for list in LISTS {
        let dates = Dates::PROGRAM.allowing(list);
        let terms = asked(dates);
        for field in FIELDS {
            let texts = list_at(field, dates);
            for place in (0..40).chain([usize::MAX - 1, usize::MAX]) {
                let entry = entry(field, place, terms).expect("a listed field");
                let expected = texts.get(place);
                assert_eq!(
                    entry.as_deref(),
                    expected.map(|text| &text[..]),
                    "{field} {place}"
                );
            }
        }
    }
}

#[test]
fn dates_are_tested_before_the_field() {
    let terms = asked(Dates::PROGRAM);
    for field in (0..=u8::MAX).filter(|field| !FIELDS.contains(field)) {
        assert_eq!(
            entry(field, 0, terms),
            Err(Refusal::UnknownField),
            "{field}"
        );
        let early = entry(
            field,
            0,
            Terms {
                date: Date(20230924),
                ..terms
            },
        );
        assert_eq!(early, Err(Refusal::Undated));
    }
    assert_eq!(
        entry(
            101,
            0,
            Terms {
                date: Date(0),
                ..terms
            }
        ),
        Err(Refusal::Undated)
    );
}

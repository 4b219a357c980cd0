//! What became of messages, in words: every one that clashes, does not read or changes nothing
//! is told, held to the second implementation.

use cases::{messages, Random};
use kieselbrot::words::{flaws, late, order, table, visible};
use kieselbrot::{origins, Date, Gathered, Posted, Refusal, Terms, FIELDS};

const DATE: Date = Date(20240101);

/// What the second implementation answers to each message, up to a wrong length.
fn answers(list: &[Vec<u8>]) -> Vec<String> {
    let mut draft = [0; reference::DRAFT_SIZE];
    let mut answers = Vec::new();
    for message in list {
        let answer = match reference::post(&mut draft, message) {
            Ok(posted) => format!("{posted:?}"),
            Err(refusal) => refusal.to_string(),
        };
        let ends = answer == "2";
        answers.push(answer);
        if ends {
            break;
        }
    }
    answers
}

#[test]
fn every_message_is_told_of() {
    let mut random = Random::new(6);
    let mut reached = [0; 5];
    for round in 0..20_000 {
        let list = messages(&mut random);
        // Cut where one is too short for its length, the list is another.
        let input = list.concat();
        let gathered = Gathered::new(&input);
        let cut: Vec<Vec<u8>> = gathered
            .postings
            .iter()
            .map(|posting| posting.bytes.to_vec())
            .collect();
        let cut_size: usize = cut.iter().map(Vec::len).sum();
        assert_eq!(cut_size + gathered.unread, input.len());
        assert_eq!(cut.concat(), input[..cut_size]);
        assert_eq!(gathered.origins, reference::origins(&input));
        let expected = answers(&cut);
        assert_eq!(expected.len(), cut.len());

        let lines: Vec<usize> = match round % 2 {
            0 => Vec::new(),
            _ => (0..cut.len()).map(|number| 10 + 3 * number).collect(),
        };
        let mut flawed = flaws(&gathered, &lines).into_iter();
        let mut told = late(&gathered, &lines).into_iter();
        let mut before = 0;
        for (posting, expected) in gathered.postings.iter().zip(&expected) {
            let number = posting.number;
            let shown = match posting.answer {
                Ok(posted) => format!("{posted:?}"),
                Err(refusal) => refusal.numbers().to_string(),
            };
            assert_eq!(shown, *expected);
            let message = gathered.message(number);
            let slot = message.and_then(|message| {
                let mut fields = FIELDS.into_iter();
                fields.position(|field| field == message.field)
            });
            // What the slot held is its origin in the input up to there.
            let held = slot.map(|slot| origins(&input[..before])[slot]);
            assert_eq!(
                posting.held.map_or(0, |held| held as u64),
                held.unwrap_or(0)
            );
            before += posting.bytes.len();
            let name = |number: usize| match lines.get(number - 1) {
                Some(line) => format!("line {line} (message {number})"),
                None => format!("message {number}"),
            };
            match posting.answer {
                Ok(Posted::Newer) => (),
                Ok(posted) => {
                    reached[usize::from(posted == Posted::Same)] += 1;
                    let sentence = told.next().expect("a sentence");
                    let held = posting.held.expect("what it is older than");
                    let what = format!(" than {}, revision ", name(held));
                    let same = format!(" is the same as {}.", name(held));
                    assert!(sentence[1..].starts_with(&name(number)[1..]), "{sentence}");
                    assert!(
                        sentence.contains(&what) || sentence.ends_with(&same),
                        "{sentence}"
                    );
                }
                Err(Refusal::Clash) => {
                    reached[2] += 1;
                    let sentence = flawed.next().expect("a sentence");
                    let held = posting.held.expect("what it clashes with");
                    let texts = [held, number]
                        .map(|number| gathered.message(number).expect("it reads").text);
                    let numbers = match lines.get(number - 1) {
                        Some(line) => format!(
                            "Lines {} and {line} (messages {held} and {number}) ",
                            lines[held - 1]
                        ),
                        None => format!("Messages {held} and {number} "),
                    };
                    assert!(sentence.starts_with(&numbers), "{sentence}");
                    for text in texts {
                        assert!(
                            sentence.contains(&format!("\"{}\"", visible(text))),
                            "{sentence}"
                        );
                    }
                    assert!(sentence.ends_with(" Ask which is right."), "{sentence}");
                }
                Err(refusal) => {
                    reached[3] += 1;
                    let sentence = flawed.next().expect("a sentence");
                    assert!(sentence.contains(&format!(" does not read ({}): ", refusal.number())));
                    assert!(sentence[1..].starts_with(&name(number)[1..]), "{sentence}");
                }
            }
        }
        if gathered.unread > 0 {
            reached[4] += 1;
            let sentence = flawed.next().expect("a sentence");
            assert!(sentence.ends_with(" left unread."), "{sentence}");
        }
        assert_eq!((flawed.next(), told.next()), (None, None));
        hold_table(&gathered, &lines);
    }
    assert!(reached.iter().all(|&count| count > 100), "{reached:?}");
}

/// Each field has a line: what is given with its message, what is proposed, what is blank.
fn hold_table(gathered: &Gathered<'_>, lines: &[usize]) {
    let rows = table(gathered, lines, Terms::given(DATE));
    assert_eq!(rows.len(), 1 + FIELDS.len());
    let mut sheet = [0; kieselbrot::SHEET_SIZE];
    let record = reference::Record::GIVEN;
    let set =
        match reference::complete(&gathered.draft, &mut sheet, reference::Date(DATE.0), record) {
            Ok(completed) => completed.set,
            Err(_) => {
                reference::copy(&gathered.draft, &mut sheet).expect("a draft");
                0
            }
        };
    let slots = sheet.chunks_exact(kieselbrot::SHEET_SLOT_SIZE);
    for (slot, (row, held)) in rows[1..].iter().zip(slots).enumerate() {
        let text = &held[1..][..usize::from(held[0])];
        assert_eq!(row[..5].trim(), FIELDS[slot].to_string());
        let shown: String = row.chars().skip(26).take(25).collect();
        assert_eq!(shown.trim_end_matches(' '), visible(text), "{row}");
        let from: String = row.chars().skip(53).collect();
        let message = match gathered.origins[slot] {
            0 => None,
            number => {
                let message = gathered.message(number as usize).expect("it reads");
                Some((number as usize, message))
            }
        };
        let message = message.map(|(number, message)| {
            let party = if message.party.0 == 1 {
                "client"
            } else {
                "adviser"
            };
            let name = match lines.get(number - 1) {
                Some(line) => format!("line {line} (message {number})"),
                None => format!("message {number}"),
            };
            format!("{name}, revision {}, {party}", message.revision)
        });
        let expected = match (set >> slot & 1 == 1, text.is_empty(), message) {
            (true, _, None) => "proposed".to_owned(),
            (true, _, Some(message)) => format!("proposed; blank by {message}"),
            (false, true, None) => "blank".to_owned(),
            (false, true, Some(message)) => format!("blank by {message}"),
            (false, false, message) => message.expect("a message"),
        };
        assert_eq!(from, expected, "{row}");
    }
}

/// Flaws come before the answer, and the table behind it.
#[test]
fn flaws_come_first() {
    let message = |text: &[u8]| cases::message(14, 1, text);
    let input = [
        message(b"004525987"),
        message(b"004525988"),
        message(b"004525987"),
    ]
    .concat();
    let words = order(&input, &[3, 4, 6], Terms::given(DATE));
    let parts: Vec<&str> = words.split("\n\n").collect();
    assert_eq!(parts.len(), 4, "{words}");
    assert_eq!(
        parts[0],
        "Lines 3 and 4 (messages 1 and 2) clash in field 14 (BIK), revision 1, adviser: \
         \"004525987\" stands, \"004525988\" does not count. Ask which is right."
    );
    assert_eq!(
        parts[1],
        "Line 6 (message 3) is the same as line 3 (message 1)."
    );
    assert!(parts[2].starts_with("This order can't be completed yet: "));
    assert!(parts[3].starts_with("field  name "));
    let empty = order(&[], &[], Terms::given(DATE));
    assert!(empty.starts_with("This order can't be completed yet: "));
}

/// Bytes that don't read are shown, a long message in part.
#[test]
fn bytes_that_do_not_read() {
    let input = [&[0, 1, 2][..], &[9; 40]].concat();
    let words = flaws(&Gathered::new(&input), &[]);
    assert_eq!(words.len(), 2, "{words:?}");
    assert!(words[0].starts_with("Message 1 does not read (2): "));
    assert!(words[0].ends_with(" Its bytes: 00 01 02."), "{words:?}");
    assert_eq!(words[1], "40 bytes behind it are left unread.");
    let long = [&[0, 38][..], &[7; 38]].concat();
    let words = flaws(&Gathered::new(&long), &[]);
    assert!(words[0].ends_with(" 07 07 ..."), "{words:?}");
}

//! Texts as they are shown: quoted, with what can't be seen made visible.

use crate::windows1251;

/// A text on one line: blanks at its ends and control characters as their pictures.
#[must_use]
pub fn visible(text: &[u8]) -> String {
    let inner = text.trim_ascii();
    // Where the text without the blanks at its ends stands.
    let before = text.len() - text.trim_ascii_start().len();
    let place = |number: usize| number < before || number >= before + inner.len();
    let characters = windows1251::text(text);
    let shown = characters.chars().enumerate();
    shown
        .map(|(number, character)| picture(character, place(number)))
        .collect()
}

/// A character that can be seen, the blank at an end too.
fn picture(character: char, is_end: bool) -> char {
    match character {
        ' ' if !is_end => ' ',
        '\0'..=' ' => char::from_u32(0x2400 + u32::from(character)).unwrap_or('\u{FFFD}'),
        '\x7F' => '\u{2421}',
        '\u{A0}' => '␣',
        '\u{AD}' => '\u{FFFD}',
        _ if character.is_control() => '\u{FFFD}',
        _ => character,
    }
}

/// A text in quotes, and in brackets what may be overlooked in it: what can't be seen,
/// characters that its field does not take, a length that none of its forms has.
#[must_use]
pub fn quoted(field: u8, text: &[u8]) -> String {
    let quoted = format!("\"{}\"", visible(text));
    match notes(field, text) {
        notes if notes.is_empty() => quoted,
        notes => format!("{quoted} ({})", notes.join(", ")),
    }
}

/// The lengths that the forms of a field have; `None` for 108, which has no one length.
const fn lengths(field: u8) -> Option<&'static [usize]> {
    Some(match field {
        14 | 102 | 103 => &[9],
        15 | 17 | 104 => &[20],
        22 => &[20, 25],
        60 => &[10, 12],
        61 | 109 => &[10],
        101 | 106 => &[2],
        105 | 107 => &[8],
        _ => return None,
    })
}

/// Forms of other lengths: "0", "00", a foreign code, a code of four digits.
fn is_short_form(field: u8, text: &[u8]) -> bool {
    let digits = text.iter().all(u8::is_ascii_digit);
    match field {
        22 => text == b"0" || digits && text.len() == 4,
        60 => text == b"0" || digits && text.len() == 5,
        102 | 104 | 105 | 106 | 107 => text == b"0",
        109 => matches!(text, b"0" | b"00"),
        _ => false,
    }
}

/// Whether a field takes a character at this place, from 1.
fn takes(field: u8, place: usize, character: char) -> bool {
    match (field, place) {
        (102 | 103, 5 | 6) => matches!(character, '0'..='9' | 'A'..='Z'),
        (109, 3 | 6) => character == '.',
        (106, _) => matches!(character, '0' | 'А'..='Я'),
        (108, _) => matches!(character, '!'..='~' | 'А'..='я') && character != '-',
        _ => character.is_ascii_digit(),
    }
}

/// What a character is called that a field does not take.
fn called(character: char) -> Called {
    match character {
        ' ' => Called::Blank,
        '\t' => Called::Tab,
        '\u{A0}' => Called::NoBreak,
        'O' | 'o' => Called::LatinO,
        'О' | 'о' => Called::CyrillicO,
        'A'..='Z' | 'a'..='z' => Called::Latin,
        'Ѐ'..='ӿ' => Called::Cyrillic,
        _ if character.is_control() || matches!(character, '\u{AD}' | '\u{FFFD}') => {
            Called::Control
        }
        _ => Called::Other,
    }
}

#[derive(Clone, Copy, PartialEq, Eq)]
enum Called {
    Blank,
    Tab,
    NoBreak,
    LatinO,
    CyrillicO,
    Latin,
    Cyrillic,
    Control,
    Other,
}

/// What may be overlooked in a text.
fn notes(field: u8, text: &[u8]) -> Vec<String> {
    if text.is_empty() || is_short_form(field, text) {
        return Vec::new();
    }
    let characters: Vec<char> = windows1251::text(text).chars().collect();
    let mut groups: Vec<(Called, Vec<(usize, char)>)> = Vec::new();
    for (place, character) in (1..).zip(characters) {
        if takes(field, place, character) {
            continue;
        }
        let called = called(character);
        match groups.iter_mut().find(|(other, _)| *other == called) {
            Some((_, places)) => places.push((place, character)),
            None => groups.push((called, vec![(place, character)])),
        }
    }
    let mut notes: Vec<String> = groups
        .iter()
        .map(|(called, places)| note(field, *called, places, text.len()))
        .collect();
    let length = text.len();
    let wrong = lengths(field).filter(|lengths| !lengths.contains(&length));
    notes.extend(wrong.map(|lengths| {
        let wanted: Vec<String> = lengths.iter().map(usize::to_string).collect();
        let wanted = wanted.join(" or ");
        match length {
            1 => format!("1 character, not {wanted}"),
            _ => format!("{length} characters, not {wanted}"),
        }
    }));
    if field == 108 && length > 15 {
        notes.push(format!("{length} characters, not 1 to 15"));
    }
    notes
}

/// As many places are told one by one.
const PLACES_SHOWN: usize = 4;

/// A note on characters of one kind.
fn note(field: u8, called: Called, places: &[(usize, char)], length: usize) -> String {
    let numbers: Vec<String> = places.iter().map(|(place, _)| place.to_string()).collect();
    let at = match (places, called) {
        ([(place, _)], Called::Blank | Called::Tab | Called::NoBreak) if *place == length => {
            "at the end".to_owned()
        }
        ([(1, _)], Called::Blank | Called::Tab | Called::NoBreak) => "at the beginning".to_owned(),
        ([(place, _)], _) => format!("in place {place}"),
        ([(first, _), _, .., (last, _)], _) if last - first + 1 == places.len() => {
            format!("in places {first} to {last}")
        }
        _ if places.len() > PLACES_SHOWN => format!("in {} places", places.len()),
        _ => format!("in places {}", and(&numbers)),
    };
    let all: String = places.iter().map(|(_, character)| character).collect();
    let characters = match places.len() > PLACES_SHOWN {
        true => "letters",
        false => &all,
    };
    let of = |one: &str, many: &str| match places {
        [_] => one.to_owned(),
        _ => many.to_owned(),
    };
    // Where digits alone may stand.
    let digits = match field {
        106 | 108 | 109 => "",
        _ => ", not a zero",
    };
    match called {
        Called::Blank => format!("{} {at}", of("a blank", "blanks")),
        Called::Tab => format!("{} {at}", of("a tab", "tabs")),
        Called::NoBreak => format!("{} {at}", of("a no-break space", "no-break spaces")),
        Called::LatinO => {
            let letters = of("the Latin letter", "the Latin letters");
            format!("{letters} {all} {at}{digits}")
        }
        Called::CyrillicO => {
            let letters = of("the Cyrillic letter", "the Cyrillic letters");
            format!("{letters} {all} {at}{digits}")
        }
        Called::Latin => format!("Latin {characters} {at}"),
        Called::Cyrillic => format!("Cyrillic {characters} {at}"),
        Called::Control => {
            let kind = of(
                "a character that can't be seen",
                "characters that can't be seen",
            );
            format!("{kind} {at}")
        }
        Called::Other if places.len() > PLACES_SHOWN => format!("other signs {at}"),
        Called::Other => {
            let signs: Vec<String> = places.iter().map(|(_, sign)| format!("'{sign}'")).collect();
            format!("{} {at}", and(&signs))
        }
    }
}

/// Items in a row, with "and" before the last.
pub fn and<T: AsRef<str>>(items: &[T]) -> String {
    row(items, "and")
}

/// Items in a row, with "or" before the last.
pub fn or<T: AsRef<str>>(items: &[T]) -> String {
    row(items, "or")
}

fn row<T: AsRef<str>>(items: &[T], word: &str) -> String {
    let items: Vec<&str> = items.iter().map(AsRef::as_ref).collect();
    match &items[..] {
        [] => String::new(),
        [item] => (*item).to_owned(),
        [others @ .., last] => format!("{} {word} {last}", others.join(", ")),
    }
}

#[cfg(test)]
mod tests {
    use super::*;

    fn of(field: u8, text: &str) -> String {
        let mut bytes = [0; 25];
        let length = windows1251::encode(text, &mut bytes).expect("Windows-1251");
        quoted(field, &bytes[..length])
    }

    #[test]
    fn what_can_not_be_seen() {
        let table = [
            (
                60,
                "7701569743 ",
                "\"7701569743␠\" (a blank at the end, 11 characters, not 10 or 12)",
            ),
            (
                60,
                " 7701569743",
                "\"␠7701569743\" (a blank at the beginning, 11 characters, not 10 or 12)",
            ),
            (105, "4526\t000", "\"4526␉000\" (a tab in place 5)"),
            (
                104,
                "182O1061201010000510",
                "\"182O1061201010000510\" (the Latin letter O in place 4, not a zero)",
            ),
            (
                104,
                "182О106120101000О510",
                "\"182О106120101000О510\" (the Cyrillic letters ОО in places 4 and 17, not a zero)",
            ),
            (
                103,
                "7728АВ001",
                "\"7728АВ001\" (Cyrillic АВ in places 5 and 6)",
            ),
            (103, "7728AB001", "\"7728AB001\""),
            (103, "77280100", "\"77280100\" (8 characters, not 9)"),
            (106, "TД", "\"TД\" (Latin T in place 1)"),
            (
                108,
                "17 А-Б",
                "\"17 А-Б\" (a blank in place 3, '-' in place 5)",
            ),
            (
                109,
                "01-02-2024",
                "\"01-02-2024\" ('-' and '-' in places 3 and 6)",
            ),
            (
                22,
                "1\u{A0}2",
                "\"1␣2\" (a no-break space in place 2, 3 characters, not 20 or 25)",
            ),
            (105, "45268WWW", "\"45268WWW\" (Latin WWW in places 6 to 8)"),
            (
                104,
                "1A2A3A4A5A6789012345",
                "\"1A2A3A4A5A6789012345\" (Latin letters in 5 places)",
            ),
            (101, "1", "\"1\" (1 character, not 2)"),
            (101, "01", "\"01\""),
            (102, "0", "\"0\""),
            (60, "12345", "\"12345\""),
            (17, "03100643000000014800", "\"03100643000000014800\""),
        ];
        for (field, text, expected) in table {
            assert_eq!(of(field, text), expected);
        }
        assert_eq!(visible(b" a\x07 \x7F "), "␠a␇ ␡␠");
    }

    #[test]
    fn items_in_a_row() {
        assert_eq!(and::<&str>(&[]), "");
        assert_eq!(and(&["a"]), "a");
        assert_eq!(or(&["a", "b", "c"]), "a, b or c");
    }
}

//! Texts and mistakes as they are shown.

use order::Mistake;

/// As many characters of a wrong item are shown.
const SHORT: usize = 60;

/// A text on one line: each control character as its picture or the replacement character.
pub fn visible(text: &str) -> String {
    text.chars().map(picture).collect()
}

fn picture(character: char) -> char {
    match character {
        '\0'..=' ' if character != ' ' => {
            char::from_u32(0x2400 + u32::from(character)).unwrap_or('\u{FFFD}')
        }
        '\x7F' => '\u{2421}',
        _ if character.is_control() => '\u{FFFD}',
        _ => character,
    }
}

/// The beginning of a text, on one line.
pub fn short(text: &str) -> String {
    let mut shown: String = text.chars().take(SHORT).map(picture).collect();
    if text.chars().nth(SHORT).is_some() {
        shown.push('…');
    }
    shown
}

/// What is wrong with a line; of a long item the beginning.
pub fn mistake(mistake: &Mistake) -> String {
    match mistake {
        Mistake::Field(item) => Mistake::Field(short(item)).to_string(),
        Mistake::Revision(item) => Mistake::Revision(short(item)).to_string(),
        _ => mistake.to_string(),
    }
}

/// A field's number with its name.
pub fn field(number: u8) -> String {
    let name = kieselbrot::words::field(number).unwrap_or("not listed");
    format!("{number} ({name})")
}

/// A number with its noun, which has an `s` if there is not one.
pub fn counted(count: usize, noun: &str) -> String {
    match count {
        1 => format!("1 {noun}"),
        _ => format!("{count} {noun}s"),
    }
}

#[cfg(test)]
mod tests {
    use super::*;

    #[test]
    fn control_characters_have_pictures() {
        assert_eq!(
            visible("a\0\x1B[1m\t\n\u{7F}\u{85} ТД"),
            "a␀␛[1m␉␊␡\u{FFFD} ТД"
        );
    }

    #[test]
    fn long_items_are_cut() {
        assert_eq!(short(&"x".repeat(60)), "x".repeat(60));
        assert_eq!(short(&"я".repeat(61)), "я".repeat(60) + "…");
        let shown = mistake(&Mistake::Field("1\x1B".repeat(1000)));
        assert!(shown.starts_with("\"1␛1␛"), "{shown}");
        assert!(shown.len() < 400, "{shown}");
    }
}

//! Texts in Windows-1251.

/// The characters of the bytes 80 to BF; the replacement character stands at 98,
/// which has none.
const UPPER: [char; 64] = [
    'Ђ', 'Ѓ', '‚', 'ѓ', '„', '…', '†', '‡', '€', '‰', 'Љ', '‹', 'Њ', 'Ќ', 'Ћ', 'Џ', 'ђ', '‘', '’',
    '“', '”', '•', '–', '—', '\u{FFFD}', '™', 'љ', '›', 'њ', 'ќ', 'ћ', 'џ', '\u{A0}', 'Ў', 'ў',
    'Ј', '¤', 'Ґ', '¦', '§', 'Ё', '©', 'Є', '«', '¬', '\u{AD}', '®', 'Ї', '°', '±', 'І', 'і', 'ґ',
    'µ', '¶', '·', 'ё', '№', 'є', '»', 'ј', 'Ѕ', 'ѕ', 'ї',
];

const NONE: char = '\u{FFFD}';

/// The byte of a character, if it has one.
fn byte(character: char) -> Option<u8> {
    match character {
        '\0'..='\x7F' => u8::try_from(character).ok(),
        'А'..='я' => u8::try_from(u32::from(character) - u32::from('А') + 0xC0).ok(),
        NONE => None,
        _ => {
            let place = UPPER.iter().position(|&upper| upper == character)?;
            u8::try_from(0x80 + place).ok()
        }
    }
}

/// The character of a byte; 98 has none but the replacement character.
fn character(byte: u8) -> char {
    match byte {
        0..0x80 => char::from(byte),
        0x80..0xC0 => UPPER[usize::from(byte - 0x80)],
        0xC0.. => char::from_u32(u32::from('А') + u32::from(byte - 0xC0)).unwrap_or(NONE),
    }
}

/// The text of bytes.
#[must_use]
pub fn text(bytes: &[u8]) -> String {
    bytes.iter().copied().map(character).collect()
}

/// Writes the bytes of a text at the start of a buffer, as many as it has room for, and
/// tells how many there are.
///
/// # Errors
///
/// The first character that has no byte.
#[inline]
pub fn encode(text: &str, buffer: &mut [u8]) -> Result<usize, char> {
    if text.is_ascii() {
        let length = text.len().min(buffer.len());
        buffer[..length].copy_from_slice(&text.as_bytes()[..length]);
        return Ok(text.len());
    }
    let mut length = 0;
    for character in text.chars() {
        let byte = byte(character).ok_or(character)?;
        if let Some(place) = buffer.get_mut(length) {
            *place = byte;
        }
        length += 1;
    }
    Ok(length)
}

#[cfg(test)]
mod tests {
    use super::*;

    #[test]
    fn every_byte_but_98_has_a_character_of_its_own() {
        let mut bytes: Vec<u8> = ('\0'..=char::MAX).filter_map(byte).collect();
        bytes.sort_unstable();
        assert!((0..=u8::MAX).filter(|&byte| byte != 0x98).eq(bytes));
    }

    #[test]
    fn a_bytes_character_has_that_byte() {
        for number in (0..=u8::MAX).filter(|&number| number != 0x98) {
            assert_eq!(byte(character(number)), Some(number));
        }
        assert_eq!(text(&[0x98]), "\u{FFFD}");
        assert_eq!(text(b"\xD2\xC4 \xB9 00"), "ТД № 00");
    }

    fn bytes(text: &str) -> Result<Vec<u8>, char> {
        let mut buffer = [0xEE; 40];
        let length = encode(text, &mut buffer)?;
        assert!(buffer[length..].iter().all(|&byte| byte == 0xEE));
        Ok(buffer[..length].to_vec())
    }

    #[test]
    fn letters_of_rule_15() {
        let letters = "УВИЛПБТГДНКЭ";
        let expected = [
            0xD3, 0xC2, 0xC8, 0xCB, 0xCF, 0xC1, 0xD2, 0xC3, 0xC4, 0xCD, 0xCA, 0xDD,
        ];
        assert_eq!(bytes(letters), Ok(expected.to_vec()));
        assert_eq!(bytes("№ ёЁ"), Ok(vec![0xB9, b' ', 0xB8, 0xA8]));
    }

    #[test]
    fn other_characters_have_none() {
        assert_eq!(bytes("a漢b"), Err('漢'));
        assert_eq!(bytes("\u{FFFD}"), Err('\u{FFFD}'));
        assert_eq!(bytes("é"), Err('é'));
    }

    /// As many bytes as there is room for, and the length of all.
    #[test]
    fn a_short_buffer() {
        for (text, expected) in [("abcd", *b"ab"), ("ТДab", [0xD2, 0xC4])] {
            let mut buffer = [0; 2];
            assert_eq!((encode(text, &mut buffer), buffer), (Ok(4), expected));
        }
    }
}

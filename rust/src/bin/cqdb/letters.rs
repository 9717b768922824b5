//! The letters of a name, which may be any bytes: UTF-8 where they are that.
use std::str;

/// A letter, or a byte that belongs to none.
#[derive(Clone, Copy)]
pub enum Letter {
    Text(char),
    Byte(u8),
}

/// The letters of some bytes, from the front.
pub fn of(bytes: &[u8]) -> Letters<'_> {
    Letters { rest: bytes }
}

pub struct Letters<'a> {
    rest: &'a [u8],
}

impl Iterator for Letters<'_> {
    type Item = Letter;

    fn next(&mut self) -> Option<Letter> {
        let (&first, rest) = self.rest.split_first()?;
        let length = match first {
            0..=0x7f => {
                self.rest = rest;
                return Some(Letter::Text(char::from(first)));
            }
            0xc2..=0xdf => 2,
            0xe0..=0xef => 3,
            0xf0..=0xf4 => 4,
            _ => 1,
        };
        let text = self.rest.get(..length).and_then(|bytes| str::from_utf8(bytes).ok());
        let letter = text.and_then(|text| text.chars().next());
        self.rest = &self.rest[letter.map_or(1, char::len_utf8)..];
        Some(letter.map_or(Letter::Byte(first), Letter::Text))
    }
}

/// Would a terminal obey the letter? Controls are those of ASCII, of ISO 6429 (0x80 to 0x9f) and delete; other letters
/// turn the direction in which text is written.
pub fn is_obeyed(letter: char) -> bool {
    if letter.is_ascii() {
        return letter.is_ascii_control();
    }
    let turns =
        matches!(letter, '\u{61c}' | '\u{200e}' | '\u{200f}' | '\u{202a}'..='\u{202e}' | '\u{2066}'..='\u{2069}');
    letter.is_control() || turns
}

/// Gives the parts of a name as a terminal is shown it. What it might obey could hide the name or others, so each byte of
/// that is given as `\x1b` for the escape; so is a byte that is no UTF-8, which some terminals take for a control.
pub fn for_terminal<E>(name: &[u8], mut give: impl FnMut(&[u8]) -> Result<(), E>) -> Result<(), E> {
    let mut buffer = [0; 4];
    for letter in of(name) {
        let (bytes, escaped) = match letter {
            Letter::Text(letter) => (letter.encode_utf8(&mut buffer).as_bytes(), is_obeyed(letter)),
            Letter::Byte(byte) => {
                buffer[0] = byte;
                (&buffer[..1], true)
            }
        };
        match escaped {
            true => bytes.iter().try_for_each(|byte| give(format!("\\x{byte:02x}").as_bytes()))?,
            false => give(bytes)?,
        }
    }
    Ok(())
}

//! Names that people could take for one another. Two such names under two ids are a swap that waits to be typed.
use std::collections::hash_map::RandomState;
use std::collections::HashMap;
use std::hash::{BuildHasher, Hasher};

use crate::args::Opt;
use crate::letters::{self, Letter};

pub const ALIKE: Opt =
    Opt::plain("--alike", "take names that look like others: in case, in spaces, in what is not seen");
pub const BLANK: Opt = Opt::plain("--blank", "take names that are empty, or of spaces alone");

/// Is nothing of the name seen?
pub fn is_blank(name: &[u8]) -> bool {
    seen(name).next().is_none()
}

/// What of a name is not seen, in words: spaces at its ends or together, and white space or controls other than a space.
pub fn unseen(name: &[u8]) -> Option<String> {
    let mut before = ' ';
    for letter in letters::of(name).map(text_of) {
        match (before, letter) {
            (' ', ' ') if name.starts_with(b" ") => return Some("a space at its beginning".to_string()),
            (' ', ' ') => return Some("two spaces together".to_string()),
            (_, ' ') => {}
            (_, letter) if !is_seen(letter) => return Some(unseen_letter(letter)),
            _ => {}
        }
        before = letter;
    }
    (before == ' ' && !name.is_empty()).then(|| "a space at its end".to_string())
}

fn unseen_letter(letter: char) -> String {
    match letter {
        '\t' => "a tab".to_string(),
        '\n' => "a line feed".to_string(),
        '\r' => "a carriage return".to_string(),
        '\u{a0}' => "a no-break space".to_string(),
        letter => format!("a letter that is not seen, U+{:04X}", letter as u32),
    }
}

/// A byte that is no UTF-8 is taken for a letter of Latin-1, as in lists of older programs.
fn text_of(letter: Letter) -> char {
    match letter {
        Letter::Text(letter) => letter,
        // In Windows' form of Latin-1 these are letters, and no controls.
        Letter::Byte(byte @ 0x80..=0x9f) => char::from_u32(0xf700 + u32::from(byte)).unwrap_or('?'),
        Letter::Byte(byte) => char::from(byte),
    }
}

/// White space, controls, letters of no width and fillers are not seen.
fn is_seen(letter: char) -> bool {
    if letter.is_ascii() {
        return letter.is_ascii_graphic();
    }
    let no_width =
        matches!(letter, '\u{ad}' | '\u{180e}' | '\u{200b}'..='\u{200f}' | '\u{2060}'..='\u{2064}' | '\u{feff}');
    let filler = matches!(letter, '\u{115f}' | '\u{1160}' | '\u{2800}' | '\u{3164}' | '\u{ffa0}');
    !(letter.is_whitespace() || no_width || filler || letters::is_obeyed(letter))
}

/// Marks of no width that choose the form of the letter before, or join it with the next: names of emoji have them, so they are
/// taken, but two names that differ in them alone look alike.
fn is_mark(letter: char) -> bool {
    let selector = matches!(letter, '\u{180b}'..='\u{180d}' | '\u{fe00}'..='\u{fe0f}' | '\u{e0100}'..='\u{e01ef}');
    selector || letter == '\u{34f}'
}

/// The letters of a name by which people tell it from others.
fn seen(name: &[u8]) -> impl Iterator<Item = char> + '_ {
    letters::of(name).map(text_of).filter(|letter| is_seen(*letter) && !is_mark(*letter))
}

/// A letter whatever its case. In upper case ß is SS.
fn caseless(letter: char) -> impl Iterator<Item = char> {
    letter.to_lowercase().flat_map(char::to_uppercase).flat_map(char::to_lowercase)
}

/// What names that look alike have in common.
fn folded(name: &[u8]) -> impl Iterator<Item = char> + '_ {
    seen(name).flat_map(caseless)
}

/// The names that were put, each with its place among the puts.
#[derive(Default)]
pub struct Names {
    /// The names, back to back, and where each ends.
    bytes: Vec<u8>,
    ends: Vec<usize>,
    /// The place of the first name of each look, by a number for the look: its hash, or the next one that is free.
    places: HashMap<u64, u32>,
    hashes: RandomState,
}

impl Names {
    /// Room for one more name. False where memory cannot be had.
    pub fn reserve(&mut self, name: &[u8]) -> bool {
        self.bytes.try_reserve(name.len()).is_ok()
            && self.ends.try_reserve(1).is_ok()
            && self.places.try_reserve(1).is_ok()
    }

    /// The place of the first name with the look of this number, where it is another name than this one.
    pub fn place_alike(&self, number: u64, name: &[u8]) -> Option<u32> {
        let place = *self.places.get(&number)?;
        (self.name(place) != name).then_some(place)
    }

    /// Adds a name with the number of its look, behind the others.
    pub fn push(&mut self, number: u64, name: &[u8]) {
        let place = self.ends.len() as u32;
        self.places.entry(number).or_insert(place);
        self.bytes.extend_from_slice(name);
        self.ends.push(self.bytes.len());
    }

    /// The name at a place.
    pub fn name(&self, place: u32) -> &[u8] {
        let place = place as usize;
        let start = place.checked_sub(1).map_or(0, |before| self.ends[before]);
        &self.bytes[start..self.ends[place]]
    }

    /// The hash of what names that look alike have in common.
    fn hash(&self, name: &[u8]) -> u64 {
        let mut hasher = self.hashes.build_hasher();
        // Some letters at once are hashed faster than each alone.
        let (mut part, mut filled) = ([0; 64], 0);
        let mut add = |letter: char| {
            filled += letter.encode_utf8(&mut part[filled..]).len();
            if filled > 60 {
                hasher.write(&part[..filled]);
                filled = 0;
            }
        };
        // The same as over `folded`; most letters are ASCII.
        for letter in seen(name) {
            match letter.is_ascii() {
                true => add(letter.to_ascii_lowercase()),
                false => caseless(letter).for_each(&mut add),
            }
        }
        hasher.write(&part[..filled]);
        hasher.finish()
    }

    /// The number of the name's look: that of the name that is there and looks like it, or else one that is free.
    pub fn number(&self, name: &[u8]) -> u64 {
        let mut number = self.hash(name);
        while self.places.get(&number).is_some_and(|place| !folded(self.name(*place)).eq(folded(name))) {
            number = number.wrapping_add(1);
        }
        number
    }
}

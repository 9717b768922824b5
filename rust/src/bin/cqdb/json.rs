//! Objects of JSON, one to a line (RFC 8259): an id with its name.
use std::borrow::Cow;

use crate::args::Opt;
use crate::letters;
use crate::lines;
use crate::outcome::{Failure, Output};

pub const JSON: Opt = Opt::plain("--json", "an object of JSON for each answer, one to a line");

/// Prints a name as the value of a key. A name that is no UTF-8 has a second value, its bytes in hexadecimal digits,
/// since the first shows the replacement character in their place.
pub fn print(out: &mut Output, key: &str, hex: &str, name: Option<&[u8]>) -> Result<(), Failure> {
    out.bytes(format!("\"{key}\":").as_bytes())?;
    let Some(name) = name else { return out.bytes(b"null") };
    quoted(out, name)?;
    if std::str::from_utf8(name).is_ok() {
        return Ok(());
    }
    out.bytes(format!(",\"{hex}\":\"").as_bytes())?;
    name.iter().try_for_each(|byte| out.bytes(format!("{byte:02x}").as_bytes()))?;
    out.bytes(b"\"")
}

/// Prints a text. Bytes that are no text are shown as the replacement character.
pub fn quoted(out: &mut Output, bytes: &[u8]) -> Result<(), Failure> {
    out.bytes(b"\"")?;
    let mut rest = bytes;
    while !rest.is_empty() {
        let (text, behind) = match std::str::from_utf8(rest) {
            Ok(text) => (text, rest.len()),
            Err(error) => {
                let end = error.valid_up_to();
                let wrong = error.error_len().unwrap_or(rest.len() - end);
                (std::str::from_utf8(&rest[..end]).unwrap_or(""), end + wrong)
            }
        };
        text.split_inclusive(is_escaped).try_for_each(|part| quoted_part(out, part))?;
        if text.len() < behind {
            out.bytes("\u{fffd}".as_bytes())?;
        }
        rest = &rest[behind..];
    }
    out.bytes(b"\"")
}

/// Is the letter written in another way? Controls have to be; what else a terminal would obey is too.
fn is_escaped(letter: char) -> bool {
    matches!(letter, '"' | '\\') || letters::is_obeyed(letter)
}

/// Prints letters of which the last alone may have to be written in another way.
fn quoted_part(out: &mut Output, part: &str) -> Result<(), Failure> {
    let Some(last) = part.chars().next_back().filter(|last| is_escaped(*last)) else {
        return out.bytes(part.as_bytes());
    };
    out.bytes(&part.as_bytes()[..part.len() - last.len_utf8()])?;
    match last {
        '"' => out.bytes(b"\\\""),
        '\\' => out.bytes(b"\\\\"),
        '\n' => out.bytes(b"\\n"),
        '\r' => out.bytes(b"\\r"),
        '\t' => out.bytes(b"\\t"),
        letter => out.bytes(format!("\\u{:04x}", letter as u32).as_bytes()),
    }
}

/// The id and the name of a line's object, whose keys are id, name and, where the name is no UTF-8, hex. What is wrong
/// with it, where it is no such object.
pub fn id_and_name(line: &[u8]) -> Result<(u32, Vec<u8>), &'static str> {
    let mut text = Text { rest: line };
    let (mut id, mut name, mut hex) = (None, None, None);
    text.sign(b'{')?;
    loop {
        let key = text.string()?;
        text.sign(b':')?;
        let again = match key.as_str() {
            "id" => id.replace(text.id()?).is_some(),
            "name" => name.replace(text.string()?).is_some(),
            "hex" => hex.replace(text.string()?).is_some(),
            _ => return Err("a key that is not id, name or hex"),
        };
        if again {
            return Err("a key that comes again");
        }
        match text.any_sign()? {
            b',' => {}
            b'}' => break,
            _ => return Err("no comma and no brace behind a value"),
        }
    }
    text.end()?;
    let (id, name) = (id.ok_or("no id")?, name.ok_or("no name")?);
    Ok((id, bytes_of(name, hex)?))
}

/// The bytes of a name. Those in hexadecimal digits are meant, and have to be the bytes that the name shows.
fn bytes_of(name: String, hex: Option<String>) -> Result<Vec<u8>, &'static str> {
    let Some(hex) = hex else { return Ok(name.into_bytes()) };
    let digit = |digit: u8| char::from(digit).to_digit(16).map(|digit| digit as u8);
    let byte = |pair: &[u8]| match pair {
        [high, low] => Some(16 * digit(*high)? + digit(*low)?),
        _ => None,
    };
    let bytes: Option<Vec<u8>> = hex.as_bytes().chunks(2).map(byte).collect();
    let bytes = bytes.ok_or("hex that is not pairs of hexadecimal digits")?;
    match String::from_utf8_lossy(&bytes) {
        Cow::Owned(shown) if shown == name => Ok(bytes),
        Cow::Borrowed(shown) if shown == name => Ok(bytes),
        _ => Err("a name and a hex of two different names"),
    }
}

/// What is left of a line.
struct Text<'a> {
    rest: &'a [u8],
}

impl<'a> Text<'a> {
    fn skip_spaces(&mut self) {
        let spaces = self.rest.iter().take_while(|byte| b" \t\r\n".contains(byte)).count();
        self.rest = &self.rest[spaces..];
    }

    fn any_sign(&mut self) -> Result<u8, &'static str> {
        self.skip_spaces();
        self.byte()
    }

    fn sign(&mut self, wanted: u8) -> Result<(), &'static str> {
        match self.any_sign()? == wanted {
            true => Ok(()),
            false => Err("no object of JSON with an id and a name"),
        }
    }

    fn byte(&mut self) -> Result<u8, &'static str> {
        let (first, rest) = self.rest.split_first().ok_or("an object that is cut")?;
        self.rest = rest;
        Ok(*first)
    }

    fn end(&mut self) -> Result<(), &'static str> {
        self.skip_spaces();
        match self.rest.is_empty() {
            true => Ok(()),
            false => Err("something behind the object"),
        }
    }

    fn id(&mut self) -> Result<u32, &'static str> {
        self.skip_spaces();
        let digits = self.rest.iter().take_while(|byte| byte.is_ascii_digit()).count();
        let (number, rest) = self.rest.split_at(digits);
        self.rest = rest;
        let leading = number.len() > 1 && number[0] == b'0';
        let behind = rest.first().is_some_and(|byte| b".eE".contains(byte));
        lines::id_of(number).filter(|_| !leading && !behind).ok_or("an id that is no number from 0 to 4294967295")
    }

    fn string(&mut self) -> Result<String, &'static str> {
        const CUT: &str = "a text that is not between quotation marks";
        const MEMORY: &str = "a text that does not fit into memory";
        if self.any_sign()? != b'"' {
            return Err(CUT);
        }
        let mut text = String::new();
        loop {
            let plain = self.rest.iter().take_while(|byte| !b"\"\\".contains(byte) && **byte >= b' ').count();
            let (part, rest) = self.rest.split_at(plain);
            let part = std::str::from_utf8(part).map_err(|_| "a text that is no UTF-8")?;
            text.try_reserve(part.len() + 4).map_err(|_| MEMORY)?;
            text.push_str(part);
            self.rest = rest;
            match self.byte().map_err(|_| CUT)? {
                b'"' => return Ok(text),
                b'\\' => text.push(self.escaped()?),
                _ => return Err("a control in a text"),
            }
        }
    }

    fn escaped(&mut self) -> Result<char, &'static str> {
        Ok(match self.byte()? {
            b'n' => '\n',
            b'r' => '\r',
            b't' => '\t',
            b'b' => '\u{8}',
            b'f' => '\u{c}',
            letter @ (b'"' | b'\\' | b'/') => char::from(letter),
            b'u' => return self.letter_by_number(),
            _ => return Err("a backslash before another letter"),
        })
    }

    /// A letter by the number behind \u; two such numbers are the halves of a large one.
    fn letter_by_number(&mut self) -> Result<char, &'static str> {
        const NONE: &str = "a number behind \\u that is no letter";
        let first = self.four_digits()?;
        if !(0xd800..0xdc00).contains(&first) {
            return char::from_u32(first).ok_or(NONE);
        }
        self.rest = self.rest.strip_prefix(b"\\u").ok_or(NONE)?;
        let second = self.four_digits()?;
        if !(0xdc00..0xe000).contains(&second) {
            return Err(NONE);
        }
        char::from_u32(0x10000 + ((first - 0xd800) << 10) + (second - 0xdc00)).ok_or(NONE)
    }

    fn four_digits(&mut self) -> Result<u32, &'static str> {
        let digits = self.rest.get(..4).filter(|digits| digits.iter().all(u8::is_ascii_hexdigit));
        let digits = digits.and_then(|digits| std::str::from_utf8(digits).ok()).ok_or("no four digits behind \\u")?;
        self.rest = &self.rest[4..];
        u32::from_str_radix(digits, 16).map_err(|_| "no four digits behind \\u")
    }
}

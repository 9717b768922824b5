//! Tables with tabs: a line for each row, a tab between the fields, and no tab or line feed within one.
use crate::args::Opt;
use crate::outcome::{Failure, Output};

pub const TSV: Opt =
    Opt::plain("--tsv", "a tab between; tab, line feed, CR and backslash in a name are \\t \\n \\r \\\\");

/// The bytes that are written as a backslash and a letter.
const ESCAPED: [(u8, u8); 4] = [(b'\t', b't'), (b'\n', b'n'), (b'\r', b'r'), (b'\\', b'\\')];

/// Prints a field.
pub fn print(out: &mut Output, field: &[u8]) -> Result<(), Failure> {
    for part in field.split_inclusive(|byte| letter_of(*byte).is_some()) {
        let (last, before) = part.split_last().expect("a part has its last byte");
        match letter_of(*last) {
            Some(letter) => {
                out.name(before)?;
                out.bytes(&[b'\\', letter])?;
            }
            None => out.name(part)?,
        }
    }
    Ok(())
}

fn letter_of(byte: u8) -> Option<u8> {
    ESCAPED.iter().find(|(escaped, _)| *escaped == byte).map(|(_, letter)| *letter)
}

/// The fields of a row that has two. None where it has more or fewer, or a backslash before another letter.
pub fn two_fields(line: &[u8]) -> Option<(&[u8], Vec<u8>)> {
    let at = line.iter().position(|byte| *byte == b'\t')?;
    Some((&line[..at], unescaped(&line[at + 1..])?))
}

fn unescaped(field: &[u8]) -> Option<Vec<u8>> {
    let mut bytes = Vec::new();
    bytes.try_reserve(field.len()).ok()?;
    let mut rest = field.iter();
    while let Some(byte) = rest.next() {
        bytes.push(match byte {
            b'\t' => return None,
            b'\\' => {
                let letter = rest.next()?;
                ESCAPED.iter().find(|(_, known)| known == letter)?.0
            }
            byte => *byte,
        });
    }
    Some(bytes)
}

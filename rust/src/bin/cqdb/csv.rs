//! Tables with commas, as RFC 4180 describes them: a field that has a comma, a quotation mark or a line end stands in
//! quotation marks, and a quotation mark within it is written twice.
use crate::args::Opt;
use crate::outcome::{Failure, Output};

pub const CSV: Opt = Opt::plain("--csv", "a comma between; a name that needs it stands in quotation marks");

/// Prints a field. One that begins or ends with white space is quoted too, since some programs drop that.
pub fn print(out: &mut Output, field: &[u8]) -> Result<(), Failure> {
    let outer = [field.first(), field.last()];
    let quoted =
        outer.into_iter().flatten().any(u8::is_ascii_whitespace) || field.iter().any(|byte| b",\"\r\n".contains(byte));
    if !quoted {
        return out.name(field);
    }
    out.bytes(b"\"")?;
    for part in field.split_inclusive(|byte| *byte == b'"') {
        out.name(part)?;
        if part.ends_with(b"\"") {
            out.bytes(b"\"")?;
        }
    }
    out.bytes(b"\"")
}

/// Does a field that is open before these bytes, or none, leave one open behind them? A line end within such a field
/// belongs to it.
pub fn leaves_open(open: bool, bytes: &[u8]) -> bool {
    open ^ (bytes.iter().filter(|byte| **byte == b'"').count() % 2 == 1)
}

/// The fields of a row that has two. None where it has more or fewer, or a quotation mark in another place.
pub fn two_fields(row: &[u8]) -> Option<(Vec<u8>, Vec<u8>)> {
    let (first, rest) = field(row)?;
    let (second, rest) = field(rest.strip_prefix(b",")?)?;
    rest.is_empty().then_some((first, second))
}

/// The first field, and what stands behind it.
fn field(row: &[u8]) -> Option<(Vec<u8>, &[u8])> {
    let mut bytes = Vec::new();
    bytes.try_reserve(row.len()).ok()?;
    let Some(mut rest) = row.strip_prefix(b"\"") else {
        let end = row.iter().position(|byte| *byte == b',').unwrap_or(row.len());
        bytes.extend_from_slice(&row[..end]);
        return (!bytes.contains(&b'"')).then_some((bytes, &row[end..]));
    };
    loop {
        let end = rest.iter().position(|byte| *byte == b'"')?;
        bytes.extend_from_slice(&rest[..end]);
        rest = &rest[end + 1..];
        match rest.strip_prefix(b"\"") {
            Some(more) => {
                bytes.push(b'"');
                rest = more;
            }
            None => return Some((bytes, rest)),
        }
    }
}

//! The lines of MOVING.md's table, second column, compiled and run; and the table beside this file, so that neither has a
//! line that the other lacks.
use std::io::{self, Cursor};

use cqdb::BStr;
use cqdb::BString;
use cqdb::{CQDBWriter, Flag, Refusal, CQDB};

const TABLE: &str = include_str!("../MOVING.md");
const THIS: &str = include_str!("moving.rs");

fn refused<T>(answer: io::Result<T>) -> Refusal {
    Refusal::of(&answer.err().expect("refused")).expect("by the archive")
}

#[test]
fn names() {
    let name: &BStr = BStr::new("crane");
    let kept: BString = name.to_owned();
    assert_eq!(kept, b"crane");
    let name = BStr::new(b"Kai \xff");
    let error: std::str::Utf8Error = String::try_from(name).unwrap_err();
    assert_eq!(error.valid_up_to(), 4);
}

#[test]
fn flags() {
    let flag = Flag::from_bits_truncate(4);
    assert_eq!(flag, Flag::NONE);
}

#[test]
fn writing() -> io::Result<()> {
    let mut writer = CQDBWriter::new(Cursor::new(Vec::new()))?;
    assert_eq!(refused(writer.put("a\0b", 1)), Refusal::ZeroByte);
    assert_eq!(refused(writer.put("far", 4_294_967_295)), Refusal::NoRoom);
    writer.put("crane", 1)?;
    let stream = writer.finish()?;
    assert_eq!(CQDB::new(stream.get_ref())?.to_id("crane"), Some(1));
    Ok(())
}

#[test]
fn repeats() -> io::Result<()> {
    let stream = Cursor::new(Vec::new());
    let mut writer = CQDBWriter::with_repeats(stream, Flag::NONE)?;
    writer.put("A", 5)?;
    writer.put("A", 9)?;
    let image = writer.finish()?.into_inner();
    let db = CQDB::new(&image)?;
    assert_eq!((db.num(), db.to_id("A"), db.to_str(9).map(|name| name == "A")), (2, Some(5), Some(true)));
    let mut writer = CQDBWriter::new(Cursor::new(Vec::new()))?;
    writer.put("A", 5)?;
    assert_eq!(refused(writer.put("A", 9)), Refusal::Repeated);
    Ok(())
}

/// A table of one bucket, taken by another hash.
#[test]
fn a_full_table() -> io::Result<()> {
    let mut image = CQDBWriter::new(Cursor::new(Vec::new()))?.finish()?.into_inner();
    let table = cqdb::jhash(b"nobody", 0).unwrap() as usize % 256;
    image[24 + 8 * table..][..8].copy_from_slice(&[0x18, 8, 0, 0, 1, 0, 0, 0]);
    image.extend([1, 1, 1, 1, 0x18, 8, 0, 0]);
    let full = CQDB::new(&image)?;
    assert_eq!(full.to_id("nobody"), None);
    Ok(())
}

#[test]
fn each_line_of_the_table_stands_here() {
    let rows: Vec<&str> = TABLE.lines().filter(|line| line.starts_with("| `")).collect();
    assert!(rows.len() >= 8, "{} rows", rows.len());
    for row in rows {
        let code =
            row.split(" | ").nth(1).and_then(|cell| cell.strip_prefix('`')).and_then(|cell| cell.strip_suffix('`'));
        let code = code.unwrap_or_else(|| panic!("no code in the second column: {row}"));
        assert!(THIS.contains(code), "not compiled here: {code}");
    }
}

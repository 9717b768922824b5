//! A program over the interface of cqdb-rs. tests/drop-in builds it, as it stands, with the original and with this crate, and
//! both print the same.
//!
//!     cargo run --example drop_in
#![deny(warnings)]
#![allow(clippy::redundant_slicing)]
use std::collections::BTreeMap;
use std::fs::{self, File};
use std::io::{self, BufWriter, Cursor, Seek, SeekFrom, Write};

use cqdb::{CQDBWriter, Flag, CQDB};

const PRISMS: [(&str, u32); 6] =
    [("quay corner", 0), ("crane", 1), ("Grüße", 2), ("", 4), ("mole \"east\"\t2", 5), ("north wall", 9)];

fn two_way() -> io::Result<Vec<u8>> {
    let mut stream = Cursor::new(Vec::new());
    {
        let mut writer = CQDBWriter::new(&mut stream)?;
        for (name, id) in PRISMS {
            writer.put(name, id)?;
        }
    }
    assert_eq!(stream.position(), stream.get_ref().len() as u64);
    Ok(stream.into_inner())
}

fn one_way() -> io::Result<Vec<u8>> {
    let mut stream = Cursor::new(Vec::new());
    let mut writer = CQDBWriter::with_flag(&mut stream, Flag::NONE | Flag::ONEWAY)?;
    for (name, id) in PRISMS {
        writer.put(name.as_bytes(), id)?;
        writer.put(format!("old {name}"), id)?;
    }
    drop(writer);
    Ok(stream.into_inner())
}

/// An image that does not begin at the front of its file.
fn in_a_file() -> io::Result<Vec<u8>> {
    let path = std::env::temp_dir().join(format!("drop-in-{}", std::process::id()));
    let mut file = BufWriter::new(File::create(&path)?);
    file.write_all(b"head")?;
    let mut writer = CQDBWriter::new(file)?;
    writer.put("crane", 1)?;
    drop(writer);
    let bytes = fs::read(&path)?;
    fs::remove_file(&path)?;
    assert_eq!(&bytes[..4], b"head");
    Ok(bytes[4..].to_vec())
}

fn show(bytes: &[u8]) -> io::Result<()> {
    let db = CQDB::new(bytes)?;
    println!("{db:?}");
    println!("{} of {} bytes, sum {:08x}", db.num(), bytes.len(), sum(bytes));
    for name in ["crane", "Grüße", "", "mole", "old crane"] {
        println!("{name:?} {:?}", db.to_id(name));
    }
    for id in [0, 2, 3, 4, 5, 9, 10, u32::MAX] {
        match db.to_str(id) {
            Some(name) => println!("{id} {name} {name:?} [{name:>20}] [{name:*^15}] [{name:3}] {}", name == "crane"),
            None => println!("{id} has no name"),
        }
    }
    let mut longest = BTreeMap::new();
    for entry in &db {
        let (id, name) = entry?;
        longest.insert(name.len(), id);
        println!("{id}: {}", String::from_utf8_lossy(name));
    }
    println!("{longest:?} {:?}", db.iter().size_hint());
    let named: io::Result<Vec<_>> = db.iter().collect();
    println!("{:?}", named?);
    Ok(())
}

/// Names as text, as bytes and in part.
fn convert(bytes: &[u8]) -> Result<(), Box<dyn std::error::Error>> {
    CQDB::new(bytes)?;
    let db = CQDB::new(bytes)?;
    db.iter();
    let name = db.to_str(0).ok_or("no name")?;
    let text: &str = name.try_into()?;
    let plain: &[u8] = name.into();
    println!("{} {text} {plain:?} {}", String::try_from(name)?, plain == name);
    println!("{} {} {:?} {:?} {:?}", &name[1..3], &name[4..], &name[..5], &name[..=1], &name[5..=6]);
    println!("{:?} {:?} {}", name[0], &name[..], &name[2..4] == "ay");
    let held = std::borrow::Cow::from(name);
    println!("{held:?} {} {}", name == held, name == std::borrow::Cow::Borrowed("quay corner"));
    println!("{:?}", db.to_str(2).map(|name| &name[..3]));
    let ids: BTreeMap<Vec<u8>, u32> = db.iter().flatten().map(|(id, name)| (name.to_vec(), id)).collect();
    println!("{:?} {:?}", ids.get(name), ids.get(&b"crane"[..]));
    println!("{:?}", <&str>::try_from(&db.to_str(2).ok_or("no name")?[..3]).is_err());
    CQDBWriter::new(Cursor::new(Vec::new()))?;
    owned(&db)
}

/// Names that are kept.
fn owned(db: &CQDB) -> Result<(), Box<dyn std::error::Error>> {
    let name = db.to_str(0).ok_or("no name")?;
    let mut kept = name.to_owned();
    kept.push(b'!');
    println!("{kept} {kept:?} {} {} {}", kept.len(), kept == "quay corner!", name < kept);
    let text: &str = (&kept).try_into()?;
    println!("{text} {:?} {:?}", String::try_from(kept.clone())?, Vec::from(kept.clone()));
    let ids: BTreeMap<_, u32> = db.iter().flatten().map(|(id, name)| (name.to_owned(), id)).collect();
    println!("{ids:?} {:?} {:?} {:?}", ids.get(name), ids.get(&b"crane"[..]), ids.keys().max());
    Ok(())
}

fn sum(bytes: &[u8]) -> u32 {
    bytes.iter().fold(5381, |sum: u32, byte| sum.wrapping_mul(33) ^ u32::from(*byte))
}

fn errors(good: &[u8]) {
    let mut changed = Vec::new();
    for (at, value) in [(0, 0), (12, 0), (20, u32::MAX), (24, u32::MAX)] {
        let mut bytes = good.to_vec();
        bytes[at..at + 4].copy_from_slice(&u32::to_le_bytes(value));
        changed.push(bytes);
    }
    changed.push(good[..2_071].to_vec());
    for bytes in changed {
        let error = CQDB::new(&bytes).unwrap_err();
        println!("{:?}: {error}", error.kind());
    }
}

fn flags() {
    let mut flag = Flag::empty();
    println!("{flag:?} {:?} {:?} {}", Flag::NONE, Flag::all(), Flag::ONEWAY.bits());
    flag |= Flag::ONEWAY;
    println!("{} {} {:?}", flag.contains(Flag::ONEWAY), flag.is_empty(), flag - Flag::ONEWAY);
    println!("{:?} {:?} {:?}", Flag::from_bits(0), Flag::from_bits(1), Flag::from_bits(2));
    println!("{} {:?} {flag:#x} {flag:b}", Flag::NONE < Flag::ONEWAY, !flag & Flag::all());
    let way = match flag {
        Flag::ONEWAY => "one-way",
        _ => "two-way",
    };
    println!("{way} {:#?}", [Flag::NONE, Flag::ONEWAY].into_iter().collect::<Flag>());
    for f in Flag::all() {
        println!("{f:?}");
    }
    println!("{:?} {:?}", Flag::all().iter().collect::<Vec<_>>(), Flag::NONE.iter().count());
    println!("{:?}", Flag::all().iter_names().collect::<Vec<_>>());
}

/// Bytes that are no text, as a name of an image.
fn no_text() -> io::Result<()> {
    let mut stream = Cursor::new(Vec::new());
    stream.seek(SeekFrom::Start(0))?;
    let mut writer = CQDBWriter::new(&mut stream)?;
    for (id, name) in
        [&b"\xff"[..], b"a\xf0\x9f", b"\xf0\x9f\xa6\x80\x80b", b"\x01\x1b\x7f\r\n'", b"\xef\xbf\xbd"].iter().enumerate()
    {
        writer.put(name, id as u32)?;
    }
    drop(writer);
    show(stream.get_ref())
}

fn main() -> io::Result<()> {
    let image = two_way()?;
    show(&image)?;
    show(&one_way()?)?;
    show(&in_a_file()?)?;
    no_text()?;
    convert(&image).map_err(|error| io::Error::other(error.to_string()))?;
    errors(&image);
    flags();
    Ok(())
}

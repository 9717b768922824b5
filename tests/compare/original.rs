// The unchanged Rust: an image of puts, and opening with the number that 01 gives each of its errors.
#![allow(dead_code)]
use cqdb::{CQDBWriter, Flag, CQDB};
use std::io::Cursor;

pub type Put = (Vec<u8>, u32);

/// The image that the Rust writes to a growing stream.
pub fn image(oneway: bool, puts: &[Put]) -> Vec<u8> {
    let mut stream = Cursor::new(Vec::new());
    write(&mut stream, oneway, puts);
    stream.into_inner()
}

/// The image that it writes to a slice of `size` bytes, which held 0xa5 before.
pub fn image_in_slice(oneway: bool, puts: &[Put], size: usize) -> Vec<u8> {
    let mut room = vec![0xa5; size];
    write(&mut Cursor::new(&mut room[..]), oneway, puts);
    room
}

// Its drop closes, and keeps an error to itself.
fn write<T: std::io::Write + std::io::Seek>(stream: T, oneway: bool, puts: &[Put]) {
    let flag = if oneway { Flag::ONEWAY } else { Flag::NONE };
    let mut writer = CQDBWriter::with_flag(stream, flag).expect("a stream in memory");
    for (name, id) in puts {
        writer.put(name, *id).expect("room for an accepted put");
    }
}

/// The Rust's view of an image, or 01's number of its error.
pub fn open(image: &[u8]) -> Result<CQDB<'_>, u32> {
    CQDB::new(image).map_err(|error| match error.to_string().as_str() {
        "invalid file format" => 1,
        "invalid file format, magic mismatch" => 5,
        "invalid file format, byte order mismatch" => 6,
        "invalid table data: out of bounds" => 7,
        "invalid backward link data: out of bounds" => 8,
        other => panic!("an error that 01 does not know: {other}"),
    })
}

/// The place of an id's name in the image.
pub fn place<'a>(db: &'a CQDB<'a>, image: &[u8], id: u32) -> Option<(usize, usize)> {
    db.to_str(id).map(|name| place_of(image, name))
}

/// The place of a part of the image.
pub fn place_of(image: &[u8], part: &[u8]) -> (usize, usize) {
    (part.as_ptr() as usize - image.as_ptr() as usize, part.len())
}

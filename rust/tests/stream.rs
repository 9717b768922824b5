//! Images written to streams.
use std::io::{self, Cursor, Seek, SeekFrom, Write};

use cqdb::{CQDBWriter, Flag, MemoryWriter, Refusal, CQDB};

const PUTS: [(&str, u32); 3] = [("north wall", 0), ("crane", 1), ("mole", 7)];

fn in_memory(flag: Flag) -> Vec<u8> {
    let mut writer = MemoryWriter::with_flag(flag);
    PUTS.iter().for_each(|(name, id)| writer.put(name, *id).unwrap());
    writer.finish().unwrap()
}

fn put_all<T: Write + Seek>(writer: &mut CQDBWriter<T>) {
    PUTS.iter().for_each(|(name, id)| writer.put(name, *id).unwrap());
}

/// A stream that has room for so many bytes.
#[derive(Debug)]
struct Disk {
    inner: Cursor<Vec<u8>>,
    room: usize,
    flushed: bool,
}

impl Disk {
    fn new(room: usize) -> Disk {
        Disk { inner: Cursor::new(Vec::new()), room, flushed: false }
    }
}

impl Write for Disk {
    fn write(&mut self, bytes: &[u8]) -> io::Result<usize> {
        match self.room - self.inner.position() as usize {
            0 => Err(io::ErrorKind::WriteZero.into()),
            room => self.inner.write(&bytes[..bytes.len().min(room)]),
        }
    }

    fn flush(&mut self) -> io::Result<()> {
        self.flushed = true;
        Ok(())
    }
}

impl Seek for Disk {
    fn seek(&mut self, to: SeekFrom) -> io::Result<u64> {
        self.inner.seek(to)
    }
}

#[test]
fn finished_or_dropped_it_is_the_image_in_memory() {
    for flag in [Flag::NONE, Flag::ONEWAY] {
        let mut dropped = Cursor::new(Vec::new());
        let mut writer = CQDBWriter::with_flag(&mut dropped, flag).unwrap();
        put_all(&mut writer);
        drop(writer);
        assert_eq!(dropped.get_ref(), &in_memory(flag));

        let mut writer = CQDBWriter::with_flag(Cursor::new(Vec::new()), flag).unwrap();
        put_all(&mut writer);
        assert_eq!(writer.finish().unwrap().into_inner(), in_memory(flag));
    }
}

#[test]
fn an_image_begins_where_the_stream_stands() {
    let mut stream = Cursor::new(b"front, and what was there before".to_vec());
    stream.seek(SeekFrom::Start(5)).unwrap();
    let mut writer = CQDBWriter::new(stream).unwrap();
    put_all(&mut writer);
    let stream = writer.finish().unwrap();
    let image = in_memory(Flag::NONE);
    assert_eq!((stream.position(), &stream.get_ref()[..5]), (5 + image.len() as u64, &b"front"[..]));
    assert_eq!(stream.get_ref()[5..], image[..]);
}

#[test]
fn images_one_behind_the_other() {
    let mut stream = Cursor::new(Vec::new());
    for _ in 0..3 {
        let mut writer = CQDBWriter::new(stream).unwrap();
        put_all(&mut writer);
        stream = writer.finish().unwrap();
    }
    assert_eq!(stream.into_inner(), in_memory(Flag::NONE).repeat(3));
}

#[test]
fn refused_puts_are_errors_and_leave_the_rest() {
    let mut writer = CQDBWriter::new(Cursor::new(Vec::new())).unwrap();
    put_all(&mut writer);
    let error = writer.put("a\0b", 3).unwrap_err();
    assert_eq!((Refusal::of(&error), error.to_string()), (Some(Refusal::ZeroByte), "the name has a zero byte".into()));
    assert_eq!(writer.finish().unwrap().into_inner(), in_memory(Flag::NONE));
}

/// The end of head and entries after each put.
fn ends() -> Vec<usize> {
    PUTS.iter().scan(2_072, |end, (name, _)| { *end += name.len() + 9; Some(*end) }).collect()
}

/// The first put that finds the disk full says so, finish where all puts found room; the file that is left does not open.
#[test]
fn the_call_that_meets_a_full_disk_says_so() {
    let (ends, size) = (ends(), in_memory(Flag::NONE).len());
    for room in [0, 1, 2_071, 2_072, ends[0] - 1, ends[0], ends[1] + 3, ends[2] - 1, ends[2], size - 1] {
        let mut disk = Disk::new(room);
        let mut writer = CQDBWriter::new(&mut disk as &mut dyn Stream).unwrap();
        let full = ends.iter().position(|end| *end > room);
        for (place, (name, id)) in PUTS.iter().enumerate() {
            match (writer.put(name, *id), full) {
                (Ok(()), full) => assert!(full.is_none_or(|full| place < full), "room {room}"),
                (Err(error), Some(full)) => {
                    assert_eq!((place >= full, error.kind()), (true, io::ErrorKind::WriteZero), "room {room}");
                    assert_eq!(error.to_string().starts_with("the stream failed before: "), place > full, "room {room}");
                }
                (Err(error), None) => panic!("room {room}: {error}"),
            }
        }
        assert_eq!(writer.finish().map(drop).unwrap_err().kind(), io::ErrorKind::WriteZero, "room {room}");
        assert_eq!(disk.inner.get_ref().len(), room);
        assert!(CQDB::new(disk.inner.get_ref()).is_err(), "room {room}");
    }
    let mut writer = CQDBWriter::new(Disk::new(size)).unwrap();
    put_all(&mut writer);
    let disk = writer.finish().unwrap();
    assert!(disk.flushed && CQDB::new(disk.inner.get_ref()).is_ok());
}

/// As a program that moves from cqdb-rs meets it: a file on a full disk, and no call of finish.
#[test]
fn a_full_disk_is_an_error_of_put() {
    let mut writer = CQDBWriter::new(std::fs::OpenOptions::new().write(true).open("/dev/full").unwrap()).unwrap();
    assert_eq!(writer.put("crane", 1).unwrap_err().kind(), io::ErrorKind::StorageFull);
}

/// Each entry is in the stream when its put returns; an older image there opens no longer until the head is written.
#[test]
fn entries_go_to_the_stream_as_they_are_put() {
    let mut stream = Cursor::new(in_memory(Flag::NONE).repeat(2));
    let mut writer = CQDBWriter::new(&mut stream).unwrap();
    writer.put("quay", 3).unwrap();
    std::mem::forget(writer);
    assert_eq!(stream.position(), 2_072 + 13);
    assert_eq!(stream.get_ref()[2_072..2_085], *b"\x03\0\0\0\x05\0\0\0quay\0");
    assert!(CQDB::new(stream.get_ref()).is_err());
}

/// A panic between two puts leaves a file that does not open; a writer of its own, made by a drop meanwhile, is finished.
#[test]
fn a_panic_never_makes_half_a_list_a_whole_one() {
    struct Log<'a>(&'a mut Cursor<Vec<u8>>);
    impl Drop for Log<'_> {
        fn drop(&mut self) {
            put_all(&mut CQDBWriter::new(&mut *self.0).unwrap());
        }
    }
    let (mut stream, mut log) = (Cursor::new(Vec::new()), Cursor::new(Vec::new()));
    std::panic::catch_unwind(std::panic::AssertUnwindSafe(|| {
        let _log = Log(&mut log);
        let mut writer = CQDBWriter::new(&mut stream).unwrap();
        writer.put("crane", 1).unwrap();
        panic!("the second name cannot be read");
    }))
    .unwrap_err();
    assert!(CQDB::new(stream.get_ref()).is_err());
    assert_eq!(log.get_ref(), &in_memory(Flag::NONE));
}

const CHILD: &str = "CQDB_STREAM_TEST_CHILD";

/// What a writer says that is dropped where the disk is full: in a process of its own, whose standard error is read.
#[test]
fn a_dropped_writer_says_that_it_failed() {
    if std::env::var_os(CHILD).is_some() {
        return put_all(&mut CQDBWriter::new(Disk::new(ends()[2] + 5)).unwrap());
    }
    let child = std::process::Command::new(std::env::current_exe().unwrap())
        .args(["--exact", "a_dropped_writer_says_that_it_failed", "--nocapture"])
        .env(CHILD, "1")
        .output()
        .unwrap();
    let said = String::from_utf8_lossy(&child.stderr);
    assert!(child.status.success() && said.contains("cqdb: the image was not written: "), "{said}");
}

/// Streams of any type, as a program may hold them.
trait Stream: Write + Seek {}

impl<T: Write + Seek> Stream for T {}

#[test]
fn debug() {
    let writer = CQDBWriter::new(Disk::new(9_999)).unwrap();
    let shown = format!("{writer:?}");
    assert!(shown.starts_with("CQDBWriter { writer: Some(Disk {") && shown.contains("begin: 0"), "{shown}");
}

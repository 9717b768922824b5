//! What a buffer holds between an accepted put and the next close: no image, though opening may accept it. docs/FORMAT.md,
//! "Reading between closes", tells these cases. The crate's writer cannot get there, so the archive is called as C calls it.
use cqdb::{BStr, CQDB};

#[path = "../src/archive.rs"]
#[allow(dead_code)]
mod archive;

use archive::{Counts, Record};

const LENGTH: usize = 16_384;

/// A writer with its buffer, as a C program has them.
struct Writer {
    record: Record,
    counts: Counts,
    buffer: Vec<u8>,
}

impl Writer {
    /// Two-way, with A under 0 and B under 1, closed. The entries stand at 2,072 and 2,082 and end at 2,092; two tables of
    /// 16 bytes follow, and the back array at 2,124.
    fn with_two_names() -> Writer {
        let buffer = vec![0xa5; LENGTH];
        let mut counts = [0; 256];
        let begun = archive::begin(0, 0, &mut counts, &buffer);
        assert_eq!(begun.refusal, 0);
        let mut writer = Writer { record: begun.record, counts, buffer };
        writer.put(b"A", 0);
        writer.put(b"B", 1);
        writer.close();
        assert_eq!(
            writer.image().iter().map(Result::unwrap).collect::<Vec<_>>(),
            [(0, BStr::new("A")), (1, BStr::new("B"))]
        );
        writer
    }

    fn put(&mut self, name: &[u8], id: u32) {
        assert_eq!(archive::put_in(&mut self.record, &mut self.counts, &mut self.buffer, name, id), 0);
    }

    fn close(&mut self) {
        assert_eq!(archive::close(self.record, &self.counts, &mut self.buffer).refusal, 0);
    }

    /// The buffer as it stands, opened.
    fn image(&self) -> CQDB<'_> {
        CQDB::new(&self.buffer).expect("opening accepts it")
    }

    /// Each id gives the other's name.
    fn assert_swapped(&self) {
        let db = self.image();
        assert_eq!(db.num(), 2);
        assert_eq!([db.to_str(0), db.to_str(1)], [Some(BStr::new(b"B")), Some(BStr::new(b"A"))]);
    }

    /// After one more close every name and every id gives what was put, also what was put before it.
    fn assert_repaired(&mut self, later: &[(&[u8], u32)]) {
        self.close();
        let db = self.image();
        let puts = [&[(&b"A"[..], 0), (&b"B"[..], 1)], later].concat();
        assert_eq!(db.num() as usize, puts.len());
        for (name, id) in puts {
            assert_eq!((db.to_id_bytes(name), db.to_str(id)), (Some(id), Some(BStr::new(name))));
        }
    }
}

#[test]
fn a_put_hides_a_name() {
    let mut writer = Writer::with_two_names();
    writer.put(b"C", 2);
    let db = writer.image();
    assert_eq!(db.num(), 2);
    assert_eq!([db.to_id("A"), db.to_id("B"), db.to_id("C")], [None, Some(1), None]);
    writer.assert_repaired(&[(b"C", 2)]);
}

#[test]
fn a_name_with_a_zero_byte_is_refused_and_changes_nothing() {
    let mut writer = Writer::with_two_names();
    // The name would stand from 2,100 to 2,132, and its last 8 bytes would be the back array: 2,082 and 2,072.
    let mut name = [b'x'; 32];
    name[24..].copy_from_slice(&[0x22, 0x08, 0, 0, 0x18, 0x08, 0, 0]);
    let (record, counts, buffer) = (writer.record, writer.counts, writer.buffer.clone());
    let refusal = archive::put_in(&mut writer.record, &mut writer.counts, &mut writer.buffer, &name, 2);
    assert_eq!((refusal, writer.record), (13, record));
    assert_eq!((writer.counts, &writer.buffer), (counts, &buffer));
    assert_eq!([writer.image().to_str(0), writer.image().to_str(1)], [Some(BStr::new(b"A")), Some(BStr::new(b"B"))]);
}

#[test]
fn two_names_without_a_zero_byte_swap_two_names() {
    let mut writer = Writer::with_two_names();
    // The first entry fills the 32 bytes of the tables. The second begins at 2,124: its id and its length word are the back
    // array.
    let (first, second) = ([b'x'; 23], [b'y'; 2_071]);
    writer.put(&first, 2);
    writer.put(&second, 2_082);
    writer.assert_swapped();
    writer.assert_repaired(&[(&first, 2), (&second, 2_082)]);
}

#[test]
fn a_copy_stays_an_image() {
    let mut writer = Writer::with_two_names();
    let copy = writer.buffer.clone();
    writer.put(b"C", 2);
    let db = CQDB::new(&copy).unwrap();
    assert_eq!([db.to_id("A"), db.to_id("B"), db.to_id("C")], [Some(0), Some(1), None]);
}

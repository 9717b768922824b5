//! Images built and read back through the safe calls.
use std::io;

use cqdb::{jhash, BStr, Flag, Found, MemoryWriter, Refusal, CQDB};

fn image(flag: Flag, puts: &[(&[u8], u32)]) -> Vec<u8> {
    filled(MemoryWriter::with_flag(flag), puts)
}

fn filled(mut writer: MemoryWriter, puts: &[(&[u8], u32)]) -> Vec<u8> {
    for (name, id) in puts {
        writer.put(name, *id).expect("there is room");
    }
    writer.finish().expect("a finished writer is consistent")
}

fn walked<'a>(db: &CQDB<'a>) -> Vec<(u32, &'a BStr)> {
    db.iter().collect::<Result<_, _>>().expect("no step is an error")
}

fn refused<T>(answer: io::Result<T>) -> Option<Refusal> {
    answer.err().as_ref().and_then(Refusal::of)
}

#[test]
fn first_name_last_id() {
    let image = image(Flag::NONE, &[(b"A", 0), (b"B", 3), (b"C", 0)]);
    assert_eq!(image.len(), 2_166);
    let db = CQDB::new(&image).unwrap();
    assert_eq!(db.num(), 3);
    assert_eq!([db.to_id("A"), db.to_id("B"), db.to_id("C"), db.to_id("D")], [Some(0), Some(3), Some(0), None]);
    assert_eq!([db.to_str(0), db.to_str(3)], [Some(BStr::new(b"C")), Some(BStr::new(b"B"))]);
    assert_eq!([db.to_str(1), db.to_str(4), db.to_str(u32::MAX)], [None; 3]);
    assert_eq!(walked(&db), [(0, BStr::new("C"))]);
}

#[test]
fn home() {
    let image = filled(MemoryWriter::with_repeats(Flag::NONE), &[(b"A", 5), (b"A", 9)]);
    let db = CQDB::new(&image).unwrap();
    assert_eq!((db.to_id("A"), db.to_str(9)), (Some(5), Some(BStr::new(b"A"))));
    assert_eq!([db.home(5), db.home(9), db.home(0)], [true, true, false]);
}

#[test]
fn any_bytes_but_zero_are_a_name() {
    let long = vec![0xff; 100_000];
    let names: [&[u8]; 5] = [b"", b"\x01", b"\xff\xfe", "Grüße".as_bytes(), &long];
    let puts: Vec<_> = names.iter().zip(0..).map(|(name, id)| (*name, id)).collect();
    let image = image(Flag::NONE, &puts);
    let db = CQDB::new(&image).unwrap();
    for (name, id) in puts {
        assert_eq!(db.to_id_bytes(name), Some(id));
        assert_eq!(db.to_str(id), Some(BStr::new(name)));
    }
    assert_eq!(db.to_id("Grüße"), Some(3));
}

#[test]
fn a_zero_byte_is_refused_and_changes_nothing() {
    let mut writer = MemoryWriter::new();
    writer.put("A", 5).unwrap();
    let mut long = vec![b'x'; 100_000];
    long[99_999] = 0;
    for name in [&b"\0"[..], b"\0a", b"a\0b", b"a\0", b"0123456789abcde\0", &long] {
        assert_eq!(writer.put(name, 6), Err(Refusal::ZeroByte));
        assert_eq!(writer.put(name, u32::MAX), Err(Refusal::ZeroByte));
    }
    writer.put("C", 6).unwrap();
    let made = writer.finish().unwrap();
    assert_eq!(made, image(Flag::NONE, &[(b"A", 5), (b"C", 6)]));
    assert!(CQDB::new(&made).unwrap().readings_agree());
    assert_eq!(Refusal::ZeroByte.number(), 13);
}

#[test]
fn a_repeated_name_is_refused_and_changes_nothing() {
    for flag in [Flag::NONE, Flag::ONEWAY] {
        let mut writer = MemoryWriter::with_flag(flag);
        for (name, id) in [("A", 5), ("prism 7", 6), ("", 7)] {
            writer.put(name, id).unwrap();
        }
        for name in ["A", "prism 7", ""] {
            // 16 comes before 3: no image has room for the id 4,294,967,295.
            for id in [5, 8, u32::MAX] {
                assert_eq!(writer.put(name, id), Err(Refusal::Repeated));
            }
        }
        assert_eq!(writer.put("A\0", 5), Err(Refusal::ZeroByte));
        writer.put("prism 70", 8).unwrap();
        let puts: [(&[u8], u32); 4] = [(b"A", 5), (b"prism 7", 6), (b"", 7), (b"prism 70", 8)];
        let made = writer.finish().unwrap();
        assert_eq!(made, filled(MemoryWriter::with_repeats(flag), &puts));
    }
    assert_eq!(Refusal::Repeated.number(), 16);
    assert_eq!(Refusal::Repeated.to_string(), "the writer already holds this name, and repeats are off");
}

#[test]
fn the_choice_outlives_a_larger_buffer() {
    let name = |id: u32| format!("prism {id}");
    for repeats in [false, true] {
        let mut writer = if repeats { MemoryWriter::with_repeats(Flag::NONE) } else { MemoryWriter::new() };
        for id in 0..2_000 {
            writer.put(name(id), id).unwrap();
            let again = writer.put(name(id / 2), id);
            assert_eq!(again, if repeats { Ok(()) } else { Err(Refusal::Repeated) });
        }
        let image = writer.finish().unwrap();
        let db = CQDB::new(&image).unwrap();
        assert_eq!(db.num(), if repeats { 4_000 } else { 2_000 });
        assert_eq!(db.to_id("prism 3"), Some(3));
        assert_eq!(db.to_str(6), Some(BStr::new(if repeats { "prism 3" } else { "prism 6" })));
    }
}

#[test]
fn the_panel_reads_up_to_a_zero_byte() {
    let mut bytes = image(Flag::NONE, &[(b"first", 0), (b"second", 1), (b"third", 4)]);
    assert!(CQDB::new(&bytes).unwrap().readings_agree());
    // The entries begin at 2,072 and have 14 and 15 bytes. "first" is cut after two bytes, and "third" at its front.
    bytes[2_072 + 8 + 2] = 0;
    bytes[2_072 + 14 + 15 + 8] = 0;
    let db = CQDB::new(&bytes).unwrap();
    assert_eq!(
        [db.panel(0), db.panel(1), db.panel(4)],
        [Some(BStr::new(b"fi")), Some(BStr::new(b"second")), Some(BStr::new(b""))]
    );
    assert_eq!([db.panel(2), db.panel(5), db.panel(u32::MAX)], [None; 3]);
    assert_eq!((db.to_str(0), db.to_str(4)), (Some(BStr::new(b"fi\0st")), Some(BStr::new(b"\0hird"))));
    assert!(!db.readings_agree());
    // Only the last id, behind a gap where a walk ends, has a zero byte.
    bytes[2_072 + 8 + 2] = b'r';
    assert!(!CQDB::new(&bytes).unwrap().readings_agree());
}

#[test]
fn entries_and_tables_stand_where_they_are_said_to() {
    for flag in [Flag::NONE, Flag::ONEWAY] {
        let puts: [(&[u8], u32); 4] = [(b"A", 3), (b"B", 1), (b"A", 2), (b"", 7)];
        let image = filled(MemoryWriter::with_repeats(flag), &puts);
        let db = CQDB::new(&image).unwrap();
        assert_eq!((db.size_word() as usize, db.flag_word()), (image.len(), flag.bits()));
        let mut offsets = Vec::new();
        for table in 0..256 {
            assert!(db.buckets(table).eq(db.buckets(table + 512)), "by the lowest byte of a hash");
            for (hash, offset) in db.buckets(table) {
                let (name, _) = db.entry(offset).unwrap();
                assert_eq!((hash, hash % 256), (cqdb::jhash(name, 0).unwrap(), table));
                offsets.push(offset);
            }
        }
        offsets.sort_unstable();
        let entries: Vec<_> = offsets.iter().map(|offset| db.entry(*offset).unwrap()).collect();
        assert!(entries.iter().zip(puts).all(|((name, id), put)| (*name, *id) == (BStr::new(put.0), put.1)));
        assert!(db.puts().unwrap().eq(entries));
        let behind = image.len() as u32;
        assert!([0, behind - 7, behind, u32::MAX].iter().all(|offset| db.entry(*offset).is_none()));
    }
}

/// Its size is known before a put: it is refused where no image is as large.
#[test]
fn the_size_after_a_put() {
    for flag in [Flag::NONE, Flag::ONEWAY] {
        let mut writer = MemoryWriter::with_flag(flag);
        for (name, id) in [("crane", 9), ("mole", 2), ("", 100_000)] {
            let size = writer.size_with(name.len(), id);
            writer.put(name, id).unwrap();
            assert_eq!(writer.clone().finish().unwrap().len() as u64, size);
        }
        assert_eq!(writer.size_with(4_294_967_295, 0), u64::MAX);
        assert!(writer.size_with(4_294_967_294, u32::MAX) < u64::MAX);
    }
}

#[test]
fn the_buffer_grows() {
    let name = |id: u32| format!("prism {id}");
    for flag in [Flag::NONE, Flag::ONEWAY] {
        let mut writer = MemoryWriter::with_repeats(flag);
        for id in 0..20_000 {
            writer.put(name(id), id).unwrap();
        }
        let image = writer.finish().unwrap();
        let names: usize = (0..20_000).map(|id| 25 + name(id).len()).sum();
        assert_eq!(image.len(), 2_072 + names + if flag == Flag::NONE { 80_000 } else { 0 });
        let db = CQDB::new(&image).unwrap();
        assert_eq!(db.num(), 20_000);
        let mut offset = 2_072;
        for id in 0..20_000 {
            let (found, buckets) = db.lookup(name(id).as_bytes());
            assert_eq!(found, Some(Found { id, offset }));
            offset += 9 + name(id).len() as u32;
            assert!((1..=20_000).contains(&buckets));
            assert_eq!(db.to_str(id), (flag == Flag::NONE).then_some(BStr::new(&name(id))));
        }
    }
}

#[test]
fn one_put_may_need_much_room() {
    let image = image(Flag::NONE, &[(b"far", 1_000_000)]);
    assert_eq!(image.len(), 2_072 + 28 + 4 * 1_000_001);
    assert_eq!(CQDB::new(&image).unwrap().to_str(1_000_000), Some(BStr::new(b"far")));
}

#[test]
fn too_large_is_refused_and_changes_nothing() {
    let mut writer = MemoryWriter::new();
    writer.put("A", 5).unwrap();
    for id in [u32::MAX, u32::MAX - 1, 1 << 30, (1 << 30) - 532] {
        assert_eq!(writer.put("B", id), Err(Refusal::NoRoom));
    }
    writer.put("C", 6).unwrap();
    assert_eq!(writer.finish().unwrap(), image(Flag::NONE, &[(b"A", 5), (b"C", 6)]));
    let one_way = image(Flag::ONEWAY, &[(b"A", u32::MAX)]);
    assert_eq!(one_way.len(), 2_098);
    assert_eq!(CQDB::new(&one_way).unwrap().to_id("A"), Some(u32::MAX));
}

#[test]
fn walks_and_their_hints() {
    let image = image(Flag::NONE, &[(b"zero", 0), (b"one", 1), (b"five", 5)]);
    let db = CQDB::new(&image).unwrap();
    assert_eq!((db.back_size(), db.bytes()), (6, &image[..]));
    let mut walk = db.iter();
    assert_eq!(walk.size_hint(), (0, Some(6)));
    assert_eq!(walk.next().unwrap().unwrap(), (0, BStr::new(b"zero")));
    assert_eq!(walk.next().unwrap().unwrap(), (1, BStr::new(b"one")));
    assert_eq!(walk.size_hint(), (0, Some(4)));
    assert!(walk.next().is_none() && walk.next().is_none());
    assert_eq!((&db).into_iter().map(|step| step.unwrap().0).collect::<Vec<_>>(), [0, 1]);
}

#[test]
fn a_one_way_image_has_no_walk() {
    let one_way = image(Flag::ONEWAY, &[(b"zero", 0)]);
    let mut none = CQDB::new(&one_way).unwrap().iter();
    assert_eq!((none.size_hint(), none.next().is_none()), ((0, Some(0)), true));
    assert_eq!(CQDB::new(&one_way).unwrap().back_size(), 0);
}

#[test]
fn an_empty_image() {
    let image = MemoryWriter::default().finish().unwrap();
    assert_eq!(image.len(), 2_072);
    let db = CQDB::new(&image).unwrap();
    assert_eq!((db.num(), db.to_id(""), db.to_str(0), db.iter().count()), (0, None, None, 0));
}

#[test]
fn what_open_refuses() {
    let good = image(Flag::NONE, &[(b"A", 0)]);
    let changed = |at: usize, value: u32| {
        let mut bad = good.clone();
        bad[at..at + 4].copy_from_slice(&value.to_le_bytes());
        refused(CQDB::new(&bad))
    };
    assert_eq!(refused(CQDB::new(&good[..2_071])), Some(Refusal::TooShort));
    assert_eq!(changed(0, 0), Some(Refusal::WrongLetters));
    assert_eq!(changed(12, 0), Some(Refusal::WrongByteOrder));
    assert_eq!(changed(24, good.len() as u32 + 1), Some(Refusal::TableLeaves));
    assert_eq!(changed(20, good.len() as u32 - 3), Some(Refusal::BackLeaves));
    assert_eq!(changed(4, 0), None);
    let numbers = [Refusal::TooShort, Refusal::WrongLetters, Refusal::BackLeaves].map(Refusal::number);
    assert_eq!(numbers, [1, 5, 8]);
}

#[test]
fn a_refusal_is_an_io_error() {
    let open = |bytes: &[u8]| -> io::Result<u32> { Ok(CQDB::new(bytes)?.num()) };
    let error = open(b"CQDB").unwrap_err();
    assert_eq!((Refusal::of(&error), error.kind()), (Some(Refusal::TooShort), io::ErrorKind::Other));
    assert_eq!(Refusal::of(&io::Error::other("a disk")), None);
}

/// Changes every byte of an image, one at a time. Whatever opens is searched, named and walked without a fault.
#[test]
fn damaged_images() {
    let good = image(Flag::NONE, &[(b"A", 0), (b"B", 1), (b"C", 2)]);
    let mut opened = 0;
    for at in 0..good.len() {
        for change in [1, 0x80, 0xff] {
            let mut bad = good.clone();
            bad[at] ^= change;
            let Ok(db) = CQDB::new(&bad) else { continue };
            opened += 1;
            for name in ["A", "B", "C", "D"] {
                let (found, buckets) = db.lookup(name.as_bytes());
                assert!(buckets > 0 || found.is_none());
                if let Some(Found { id, offset }) = found {
                    let entry = &bad[offset as usize..];
                    assert_eq!((&entry[..4], &entry[8..9]), (&id.to_le_bytes()[..], name.as_bytes()));
                }
            }
            for id in 0..4 {
                assert!(db.to_str(id).map_or(true, |name| name.len() < bad.len()));
                assert!(!db.home(id) || db.to_str(id).is_some());
            }
            assert!(db.iter().count() <= 3);
        }
    }
    assert!(opened > good.len());
}

#[test]
fn hashes_of_lookup3() {
    assert_eq!(jhash(b"A", 0), Ok(0x8928_4101));
    assert_eq!(jhash(b"", 0), Ok(0x8ba9_414b));
}

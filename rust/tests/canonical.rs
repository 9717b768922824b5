//! Is this image canonical? Through the safe calls.
use cqdb::{BStr, Flag, MemoryWriter, CQDB};

const PUTS: [(&[u8], u32); 4] = [(b"A", 0), (b"north wall", 7), (b"B", 9), (b"", 7)];

fn image(flag: Flag, puts: &[(&[u8], u32)]) -> Vec<u8> {
    let mut writer = MemoryWriter::with_flag(flag);
    for (name, id) in puts {
        writer.put(name, *id).unwrap();
    }
    writer.finish().unwrap()
}

/// The puts as reading them back gives them.
fn read_back(puts: &[(&'static [u8], u32)]) -> Vec<(&'static BStr, u32)> {
    puts.iter().map(|(name, id)| (BStr::new(*name), *id)).collect()
}

fn is_canonical(image: &[u8]) -> bool {
    CQDB::new(image).is_ok_and(|db| db.is_canonical())
}

#[test]
fn images_of_a_writer() {
    for flag in [Flag::NONE, Flag::ONEWAY] {
        for n in 0..=PUTS.len() {
            let image = image(flag, &PUTS[..n]);
            assert!(is_canonical(&image), "{n} puts");
            assert_eq!(CQDB::new(&image).unwrap().puts().unwrap().collect::<Vec<_>>(), read_back(&PUTS[..n]));
        }
    }
}

#[test]
fn one_byte_behind_or_missing() {
    let image = image(Flag::NONE, &PUTS);
    let behind = [&image[..], &[0]].concat();
    assert!(CQDB::new(&behind).is_ok(), "bytes may follow an image that is read");
    assert!(!is_canonical(&behind) && CQDB::new(&behind).unwrap().puts().is_none());
    assert!(!is_canonical(&image[..image.len() - 1]));
}

#[test]
fn words_of_a_lost_disk() {
    let image = image(Flag::NONE, &PUTS);
    // The size word, the flag word, an absent table's offset, a name, and the last link.
    let absent = (0..256).map(|t| 24 + 8 * t).find(|&row| image[row..row + 8] == [0; 8]).unwrap();
    for at in [4, 8, absent, 2080, image.len() - 4] {
        let mut copy = image.clone();
        copy[at] ^= 1;
        assert!(!is_canonical(&copy), "byte {at}");
    }
}

#[test]
fn puts_know_their_number() {
    let image = image(Flag::ONEWAY, &PUTS);
    let mut puts = CQDB::new(&image).unwrap().puts().unwrap();
    assert_eq!((puts.len(), puts.next()), (4, Some(read_back(&PUTS)[0])));
    assert_eq!((puts.len(), puts.clone().last()), (3, Some(read_back(&PUTS)[3])));
    assert_eq!((puts.by_ref().count(), puts.next()), (3, None));
}

//! Several walls in a file: append, open by position, count, walk.
use cqdb::{BStr, Bundle, MemoryWriter, Refusal, CQDB};

fn image(names: &[&str]) -> Vec<u8> {
    let mut writer = MemoryWriter::new();
    for (name, id) in names.iter().zip(0..) {
        writer.put(name, id).unwrap();
    }
    writer.finish().unwrap()
}

fn walls() -> [Vec<u8>; 3] {
    [image(&["A", "B"]), image(&[]), image(&["B", "quay"])]
}

fn bundle(images: &[Vec<u8>]) -> Vec<u8> {
    let mut file = Vec::new();
    for image in images {
        let joined = file.len() + image.len();
        assert_eq!(Bundle::append(&mut file, image), Ok(joined as u64));
    }
    file
}

fn refused(file: &[u8], position: u64) -> Option<Refusal> {
    Bundle::new(file).open(position).err()
}

fn with_size(mut file: Vec<u8>, at: usize, size: u32) -> Vec<u8> {
    file[at + 4..at + 8].copy_from_slice(&size.to_le_bytes());
    file
}

#[test]
fn images_back_to_back() {
    let file = bundle(&walls());
    assert_eq!(file, walls().concat());
    let bundle = Bundle::new(&file);
    assert_eq!(bundle.count(), Ok(3));
    let nums: Vec<u32> = (0..3).map(|k| bundle.open(k).unwrap().num()).collect();
    assert_eq!(nums, [2, 0, 2]);
    assert_eq!(bundle.open(0).unwrap().to_id("B"), Some(1));
    assert_eq!(bundle.open(2).unwrap().to_id("B"), Some(0));
    assert_eq!(bundle.open(2).unwrap().to_str(1), Some(BStr::new(b"quay")));
    assert_eq!([refused(&file, 3), refused(&file, u64::MAX)], [Some(Refusal::NoSuchImage); 2]);
}

#[test]
fn an_empty_file() {
    assert_eq!(Bundle::new(&[]).count(), Ok(0));
    assert_eq!([refused(&[], 0), refused(&[], 7)], [Some(Refusal::NoSuchImage); 2]);
    assert!(Bundle::new(&[]).iter().next().is_none());
    assert_eq!(Bundle::new(b"").first_size(), None);
    assert_eq!(Bundle::new(b"CQDB\x01\x02\0").first_size(), None);
    assert_eq!(Bundle::new(b"CQDB\x01\x02\0\0").first_size(), Some(513));
}

#[test]
fn a_walk_gives_every_image() {
    let file = bundle(&walls());
    let bundle = Bundle::new(&file);
    let nums = |walk: cqdb::Images| walk.map(|db| db.map(|db| db.num())).collect::<Vec<_>>();
    assert_eq!(nums(bundle.iter()), [Ok(2), Ok(0), Ok(2)]);
    assert_eq!((&bundle).into_iter().count(), 3);
    // An image that does not open is told, and the walk goes on; where it breaks off, it ends.
    let mut spoilt = file.clone();
    spoilt[0] = b'c';
    assert_eq!(nums(Bundle::new(&spoilt).iter()), [Err(Refusal::WrongLetters), Ok(0), Ok(2)]);
    let mut walk = Bundle::new(&file[..file.len() - 1]).iter();
    assert_eq!(nums(walk.clone()), [Ok(2), Ok(0), Err(Refusal::BrokenBundle)]);
    assert_eq!([walk.nth(3).is_none(), walk.next().is_none()], [true, true]);
}

#[test]
fn broken_files() {
    let one = image(&[]);
    let seven = [&one[..], &[0; 7]].concat();
    assert_eq!(Bundle::new(&seven).open(0).map(|db| db.num()), Ok(0));
    assert_eq!([refused(&seven, 1), refused(&seven, 9)], [Some(Refusal::BrokenBundle); 2]);
    assert_eq!(Bundle::new(&seven).count(), Err(Refusal::BrokenBundle));
    for size in [0, 2_071, 2_073, u32::MAX] {
        assert_eq!(refused(&with_size(one.clone(), 0, size), 0), Some(Refusal::BrokenBundle));
    }
}

/// The opened part ends where the size word says: a table that reaches into the next image leaves its own.
#[test]
fn a_table_that_reaches_into_the_next_image() {
    let file = bundle(&walls());
    let first = walls()[0].len();
    let mut reaching = file.clone();
    reaching[24..32].copy_from_slice(&[first as u32, 1].map(u32::to_le_bytes).concat());
    assert!(CQDB::new(&reaching).is_ok());
    assert_eq!(refused(&reaching, 0), Some(Refusal::TableLeaves));
    assert_eq!(refused(&reaching, 1), None);
}

#[test]
fn a_refused_append_changes_nothing() {
    let good = bundle(&walls());
    let new = image(&["C"]);
    let unfit = [Vec::new(), new[..2_071].to_vec(), [&new[..], &[0]].concat(), with_size(new.clone(), 0, 0)];
    for image in &unfit {
        let mut file = good.clone();
        assert_eq!(Bundle::append(&mut file, image), Err(Refusal::BrokenBundle));
        assert_eq!(file, good);
    }
    let mut cut = good[..good.len() - 1].to_vec();
    assert_eq!(Bundle::append(&mut cut, &new), Err(Refusal::BrokenBundle));
    assert_eq!(cut, good[..good.len() - 1]);
}

/// An image need not open to be appended.
#[test]
fn an_image_that_does_not_open() {
    let mut spoilt = image(&["A"]);
    spoilt[0] = b'c';
    let mut file = image(&[]);
    assert_eq!(Bundle::append(&mut file, &spoilt), Ok(2_072 + spoilt.len() as u64));
    assert_eq!(refused(&file, 1), Some(Refusal::WrongLetters));
    assert_eq!(Bundle::new(&file).count(), Ok(2));
}

//! Two images compared, through the safe calls.
use cqdb::{changes, BStr, Change, Flag, MemoryWriter, CQDB};

fn image(puts: &[(&str, u32)]) -> Vec<u8> {
    let mut writer = MemoryWriter::new();
    for &(name, id) in puts {
        writer.put(name, id).unwrap();
    }
    writer.finish().unwrap()
}

fn name(text: &str) -> Option<&BStr> {
    Some(BStr::new(text.as_bytes()))
}

#[test]
fn what_was_and_is() {
    let old = image(&[("north wall", 0), ("crane", 1), ("mole", 3), ("quay", 4)]);
    let new = image(&[("north wall", 0), ("crane 2", 1), ("mole", 2), ("quay", 4), ("gate", 9)]);
    let (old, new) = (CQDB::new(&old).unwrap(), CQDB::new(&new).unwrap());
    let all: Vec<_> = changes(&old, &new).collect();
    let change = |id, before, after, moved_to| Change { id, before, after, moved_to };
    assert_eq!(
        all,
        [
            change(1, name("crane"), name("crane 2"), None),
            change(2, None, name("mole"), None),
            change(3, name("mole"), None, Some(2)),
            change(9, None, name("gate"), None),
        ]
    );
    let back: Vec<_> = changes(&new, &old).map(|c| (c.id, c.before, c.after)).collect();
    assert_eq!(
        back,
        all.iter().map(|c| (c.id, c.after, c.before)).collect::<Vec<_>>(),
        "swapped images, swapped answers"
    );
}

#[test]
fn exchanged_names() {
    let old = image(&[("north wall 1", 14), ("north wall 2", 15), ("crane", 16)]);
    let new = image(&[("north wall 2", 14), ("north wall 1", 15), ("crane", 16)]);
    let (old, new) = (CQDB::new(&old).unwrap(), CQDB::new(&new).unwrap());
    let moved: Vec<_> = changes(&old, &new).map(|change| (change.id, change.moved_to)).collect();
    assert_eq!(moved, [(14, Some(15)), (15, Some(14))]);
}

#[test]
fn names_of_one_length() {
    let (old, new) = (image(&[("crane", 7)]), image(&[("crate", 7)]));
    let (old, new) = (CQDB::new(&old).unwrap(), CQDB::new(&new).unwrap());
    assert_eq!(changes(&old, &new).map(|change| change.id).collect::<Vec<_>>(), [7]);
}

#[test]
fn equal_images_have_none() {
    let old = image(&[("north wall", 0), ("crane", 5)]);
    let db = CQDB::new(&old).unwrap();
    let mut none = changes(&db, &db);
    assert_eq!((none.next(), none.next()), (None, None));
}

#[test]
fn one_way_images_name_nothing() {
    let mut writer = MemoryWriter::with_flag(Flag::ONEWAY);
    writer.put("crane", 1).unwrap();
    let (one_way, two_way) = (writer.finish().unwrap(), image(&[("crane", 1)]));
    let (one_way, two_way) = (CQDB::new(&one_way).unwrap(), CQDB::new(&two_way).unwrap());
    assert_eq!(changes(&one_way, &one_way).count(), 0);
    let gone: Vec<_> = changes(&two_way, &one_way).collect();
    assert_eq!(gone, [Change { id: 1, before: name("crane"), after: None, moved_to: None }]);
}

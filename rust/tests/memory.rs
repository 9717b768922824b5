//! The memory that a writer takes.
use cqdb::{Flag, MemoryWriter, Refusal};

/// A name that is refused needs no room for its id.
#[test]
fn a_list_with_a_refused_name_of_a_large_id() {
    let refused = [
        ("a\0b", 1_000_000_000, Refusal::ZeroByte),
        ("crane", 1_000_000_001, Refusal::Repeated),
        ("x", u32::MAX, Refusal::NoRoom),
    ];
    for (name, id, refusal) in refused {
        let built = MemoryWriter::build(Flag::NONE, [("crane", 1), (name, id), ("mole", 2)]).unwrap();
        assert_eq!((built.accepted, built.refused), (2, vec![(1, refusal)]));
        assert!(built.image.capacity() < 10_000, "{}", built.image.capacity());
    }
    let built = MemoryWriter::build_with_repeats(Flag::NONE, [("crane", 1), ("crane", 3)]).unwrap();
    assert_eq!((built.accepted, built.image.len()), (2, 2_072 + 2 * 30 + 16));
    // A name whose first put is refused for its id is put by the next.
    let built = MemoryWriter::build(Flag::NONE, [("crane", u32::MAX), ("crane", 3)]).unwrap();
    assert_eq!((built.accepted, built.refused), (1, vec![(0, Refusal::NoRoom)]));
}

/// The place of a name's put, also behind puts that were refused.
#[test]
fn the_place_of_a_name() {
    let mut writer = MemoryWriter::new();
    for (name, id) in [("north wall", 7), ("crane", 7), ("crane", 8), ("", 9), ("a\0b", 10), ("mole", 1)] {
        let _ = writer.put(name, id);
    }
    let places = ["north wall", "crane", "", "mole", "a\0b", "pier"].map(|name| writer.place_of(name.as_bytes()));
    assert_eq!(places, [Some(0), Some(1), Some(2), Some(3), None, None]);
    let mut repeats = MemoryWriter::with_repeats(Flag::NONE);
    repeats.put("crane", 7).unwrap();
    assert_eq!(repeats.place_of(b"crane"), None);
}

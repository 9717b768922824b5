//! A whole list in one call, beside single puts.
use cqdb::{Built, Flag, MemoryWriter, Refusal};

/// The same by single puts.
fn single(mut writer: MemoryWriter, list: &[(&[u8], u32)]) -> Built {
    let mut refused = Vec::new();
    for (i, &(name, id)) in list.iter().enumerate() {
        if let Err(why) = writer.put(name, id) {
            refused.push((i, why));
        }
    }
    let accepted = (list.len() - refused.len()) as u32;
    Built { image: writer.finish().unwrap(), accepted, refused }
}

const LIST: [(&[u8], u32); 7] = [(b"A", 0), (b"B", 9), (b"A", 1), (b"", 2), (b"C\0", 3), (b"C\0", 4), (b"B", 9)];

#[test]
fn a_list_is_its_single_puts() {
    for flag in [Flag::NONE, Flag::ONEWAY] {
        assert_eq!(MemoryWriter::build(flag, LIST).unwrap(), single(MemoryWriter::with_flag(flag), &LIST));
        assert_eq!(MemoryWriter::build_with_repeats(flag, LIST).unwrap(), single(MemoryWriter::with_repeats(flag), &LIST));
    }
}

#[test]
fn repeats_and_zero_bytes_are_refused_and_the_rest_accepted() {
    let built = MemoryWriter::build(Flag::NONE, LIST).unwrap();
    let zero = Refusal::ZeroByte;
    assert_eq!(built.accepted, 3);
    assert_eq!(built.refused, [(2, Refusal::Repeated), (4, zero), (5, zero), (6, Refusal::Repeated)]);
}

#[test]
fn an_empty_list_makes_an_empty_image() {
    let none: [(&str, u32); 0] = [];
    let built = MemoryWriter::build(Flag::NONE, none).unwrap();
    assert_eq!((built.image.len(), built.accepted), (2_072, 0));
}

#[test]
fn names_that_all_repeat_take_no_long_time() {
    let built = MemoryWriter::build(Flag::ONEWAY, (0..200_000).map(|i| (format!("prism {}", i % 3), i))).unwrap();
    assert_eq!(built.accepted, 3);
    assert_eq!(built.refused.len(), 199_997);
}

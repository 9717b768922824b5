//! Names and ids one to one, through the safe calls.
use cqdb::{BStr, Flag, MemoryWriter, Mismatch, OneToOne, Refusal, CQDB};

fn image(flag: Flag, puts: &[(&str, u32)]) -> Vec<u8> {
    let mut writer = MemoryWriter::with_repeats(flag);
    for (name, id) in puts {
        writer.put(name, *id).unwrap();
    }
    writer.finish().unwrap()
}

/// Asserts that the entry with this number, from 0, is the first that fails.
#[track_caller]
fn fails(flag: Flag, puts: &[(&str, u32)], number: usize, kind: Mismatch) {
    let image = image(flag, puts);
    let offset = 2_072 + puts[..number].iter().map(|(name, _)| name.len() as u32 + 9).sum::<u32>();
    let (name, id) = puts[number];
    let first = OneToOne::Fails { kind, offset, id, name: BStr::new(name) };
    assert_eq!(CQDB::new(&image).unwrap().one_to_one(), Ok(first));
}

#[test]
fn one_to_one() {
    let all = [("north wall", 7), ("crane", 2), ("", 0), ("crane", 2)];
    for flag in [Flag::NONE, Flag::ONEWAY] {
        for n in 0..=all.len() {
            let image = image(flag, &all[..n]);
            assert_eq!(CQDB::new(&image).unwrap().one_to_one(), Ok(OneToOne::Yes), "{n} puts");
        }
    }
}

#[test]
fn two_ids_for_a_name() {
    for flag in [Flag::NONE, Flag::ONEWAY] {
        fails(flag, &[("crane", 5), ("mole", 1), ("crane", 9)], 2, Mismatch::OtherId);
        fails(flag, &[("crane", 9), ("crane", 5), ("crane", 9)], 1, Mismatch::OtherId);
    }
}

#[test]
fn two_names_for_an_id() {
    let puts = [("north wall", 3), ("crane", 0), ("mole", 0)];
    fails(Flag::NONE, &puts, 1, Mismatch::OtherName);
    let one_way = image(Flag::ONEWAY, &puts);
    assert_eq!(CQDB::new(&one_way).unwrap().one_to_one(), Ok(OneToOne::Yes), "a one-way image names no ids");
}

#[test]
fn the_first_of_several() {
    // The second entry's name has another id, and its id has another name: the first of the two counts.
    fails(Flag::NONE, &[("crane", 5), ("crane", 9), ("mole", 9)], 1, Mismatch::OtherId);
    fails(Flag::NONE, &[("mole", 9), ("crane", 5), ("crane", 9)], 0, Mismatch::OtherName);
}

#[test]
fn an_image_that_is_not_canonical() {
    let mut image = image(Flag::NONE, &[("crane", 5)]);
    image.push(0);
    assert_eq!(CQDB::new(&image).unwrap().one_to_one(), Err(Refusal::NotCanonical));
}

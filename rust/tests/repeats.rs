//! Repeated names: the crate's writer beside the archive's own puts with repeats off and on.
use std::collections::HashMap;

use cqdb::{jhash, Flag, MemoryWriter, Refusal};

#[path = "../src/archive.rs"]
#[allow(dead_code)]
mod archive;

/// The answers of the archive's single puts, and the image.
fn by_the_archive(flag: Flag, repeats: u32, puts: &[(Vec<u8>, u32)]) -> (Vec<u32>, Vec<u8>) {
    let mut buffer = vec![0xa5; 1 << 17];
    let mut counts = [0; 256];
    let mut record = archive::begin(flag.bits(), repeats, &mut counts, &buffer).record;
    let mut answers = Vec::new();
    for (name, id) in puts {
        answers.push(archive::put_in(&mut record, &mut counts, &mut buffer, name, *id));
    }
    let closed = archive::close(record, &counts, &mut buffer);
    assert_eq!(closed.refusal, 0);
    buffer.truncate(closed.size as usize);
    (answers, buffer)
}

fn by_the_crate(mut writer: MemoryWriter, puts: &[(Vec<u8>, u32)]) -> (Vec<u32>, Vec<u8>) {
    let answers = puts.iter().map(|(name, id)| writer.put(name, *id).map_or_else(Refusal::number, |()| 0)).collect();
    (answers, writer.finish().unwrap())
}

struct Random(u64);

impl Random {
    fn below(&mut self, n: u64) -> u64 {
        self.0 = self.0.wrapping_mul(6_364_136_223_846_793_005).wrapping_add(1_442_695_040_888_963_407);
        (self.0 >> 33) % n
    }
}

/// Names out of a few, so that most lists repeat some; one in twenty has a zero byte.
fn list(random: &mut Random) -> Vec<(Vec<u8>, u32)> {
    let (names, puts) = (1 + random.below(60), random.below(120));
    let mut one = |_| {
        let mut name = vec![b'a' + (random.below(3) as u8); random.below(names) as usize];
        if random.below(20) == 0 {
            name.push(0);
        }
        (name, random.below(200) as u32)
    };
    (0..puts).map(&mut one).collect()
}

#[test]
fn the_answers_are_those_of_the_archive() {
    let mut random = Random(7);
    let mut seen = HashMap::new();
    for _ in 0..2_000 {
        let puts = list(&mut random);
        for flag in [Flag::NONE, Flag::ONEWAY] {
            let off = by_the_archive(flag, 0, &puts);
            off.0.iter().for_each(|answer| *seen.entry(*answer).or_insert(0) += 1);
            assert_eq!(by_the_crate(MemoryWriter::with_flag(flag), &puts), off, "{puts:?}");
            let on = by_the_archive(flag, 1, &puts);
            assert_eq!(by_the_crate(MemoryWriter::with_repeats(flag), &puts), on, "{puts:?}");
        }
    }
    assert!([0, 13, 16].iter().all(|answer| seen[answer] > 1_000), "{seen:?}");
}

/// An equal hash is no equal name: both names are put, and each is refused when it comes again.
#[test]
fn names_with_one_hash() {
    let mut first = HashMap::new();
    let mut pairs = Vec::new();
    for number in 0..300_000_u32 {
        let name = format!("prism {number}");
        if let Some(other) = first.insert(jhash(name.as_bytes(), 0).unwrap(), number) {
            pairs.push((format!("prism {other}"), name));
        }
    }
    assert!(!pairs.is_empty());
    for (a, b) in pairs {
        let mut writer = MemoryWriter::new();
        let answers = [&a, &b, &a, &b].map(|name| writer.put(name, 1));
        assert_eq!(answers, [Ok(()), Ok(()), Err(Refusal::Repeated), Err(Refusal::Repeated)]);
    }
}

/// 16 comes before 3, and a put that was refused for want of room is not held.
#[test]
fn the_order_of_refusals() {
    let mut writer = MemoryWriter::new();
    assert_eq!(writer.put("A", u32::MAX), Err(Refusal::NoRoom));
    assert_eq!(writer.put("A", 5), Ok(()));
    assert_eq!(writer.put("A", u32::MAX), Err(Refusal::Repeated));
    assert_eq!(writer.put("A\0", u32::MAX), Err(Refusal::ZeroByte));
    assert_eq!(Refusal::Repeated.number(), 16);
}

/// As many names as make the index grow by each of its factors: none is lost when it grows, and the image is that of one call.
#[test]
fn an_index_that_grows() {
    let name = |i: u32| format!("prism {i}");
    let mut writer = MemoryWriter::new();
    for i in 0..70_000 {
        writer.put(name(i), i).unwrap();
        assert_eq!(writer.put(name(i / 2), i), Err(Refusal::Repeated), "{i}");
    }
    assert!((0..70_000).all(|i| writer.put(name(i), 1) == Err(Refusal::Repeated)));
    let built = MemoryWriter::build(Flag::NONE, (0..70_000).map(|i| (name(i), i))).unwrap();
    assert_eq!(built.accepted, 70_000);
    assert!(writer.finish().unwrap() == built.image);
}

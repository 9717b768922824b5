//! The average search length, through the safe calls.
use cqdb::{load, Average, Flag, MemoryWriter, Refusal, CQDB};

fn image(mut writer: MemoryWriter, names: &[&str]) -> Vec<u8> {
    for (id, name) in names.iter().enumerate() {
        writer.put(name, id as u32).unwrap();
    }
    writer.finish().unwrap()
}

#[test]
fn loads() {
    for (seed, more) in [(0, 1_577), (1, 1_779), (u32::MAX, 1_599)] {
        let image = load(seed);
        let db = CQDB::new(&image).unwrap();
        let average = db.average().unwrap();
        assert_eq!(average, Average { entries: 4_096, quotient: 1, remainder: more });
        assert_eq!(average.total(), 4_096 + more);
        let lengths = db.lengths().unwrap();
        assert_eq!(lengths.iter().sum::<u32>(), 4_096);
        // No search of these reads 16 buckets or more, so the counts give the total.
        let total: u64 = (1..).zip(lengths).map(|(length, count)| length * u64::from(count)).sum();
        assert_eq!((total, lengths[15]), (4_096 + more, 0));
    }
}

#[test]
fn a_repeated_name_counts_each_time() {
    let image = image(MemoryWriter::with_repeats(Flag::NONE), &["A"; 20]);
    let db = CQDB::new(&image).unwrap();
    // Each of the twenty lookups finds the first entry, in the first bucket of its search.
    assert_eq!(db.average().unwrap(), Average { entries: 20, quotient: 1, remainder: 0 });
    assert_eq!(db.lengths().unwrap()[0], 20);
}

#[test]
fn one_way() {
    let image = image(MemoryWriter::with_flag(Flag::ONEWAY), &["north wall", "crane", "quay"]);
    let average = CQDB::new(&image).unwrap().average().unwrap();
    assert_eq!((average.entries, average.total()), (3, 3));
}

#[test]
fn refusals() {
    let empty = image(MemoryWriter::new(), &[]);
    let db = CQDB::new(&empty).unwrap();
    assert_eq!((db.average(), db.lengths()), (Err(Refusal::NoEntries), Err(Refusal::NoEntries)));
    // 17 comes before 18: an empty image with a byte behind it.
    let longer = [&empty[..], &[0]].concat();
    let db = CQDB::new(&longer).unwrap();
    assert_eq!((db.average(), db.lengths()), (Err(Refusal::NotCanonical), Err(Refusal::NotCanonical)));
    assert_eq!((Refusal::NotCanonical.number(), Refusal::NoEntries.number()), (17, 18));
}

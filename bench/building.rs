// Writing: all puts and the close, names of 9 bytes, into a slice of exactly the image's size. Neither side clears its slice
// between the repetitions. Single puts and close are measured over 64 lists of 4,096 names in turn. Then what the check of the 256
// counts costs by itself.
use crate::archive::{self, Packed, Record};
use crate::names::Names;
use crate::table::{self, best, least};
use cqdb::CQDBWriter;
use std::hint::black_box;
use std::io::Cursor;

/// The size of the image of n entries with names of this length and the ids below n.
pub fn image_size(n: usize, length: usize) -> usize {
    2072 + n * (25 + length) + 4 * n
}

/// Our image of these names, by single puts with repeats on, in a buffer of its size.
pub fn build(names: &[&str], buf: &mut [u8]) {
    let mut counts = [0; 256];
    let mut record = archive::begin(0, 1, &mut counts, buf).record;
    for (id, name) in names.iter().enumerate() {
        archive::put_in(&mut record, &mut counts, buf, name.as_bytes(), id as u32);
    }
    let closed = archive::close(record, &counts, buf);
    assert_eq!((closed.refusal, closed.size as usize), (0, buf.len()));
}

/// The Rust's image of these names.
pub fn build_rust(names: &[&str], buf: &mut [u8]) {
    let mut writer = CQDBWriter::new(Cursor::new(buf)).expect("a stream in memory");
    for (id, name) in names.iter().enumerate() {
        writer.put(name, id as u32).expect("room");
    }
}

// The times for an entry, over so many lists of different names in turn.
fn building(n: usize, lists: usize, repetitions: usize) -> (f64, f64) {
    let lists = Names::lists(n, lists);
    let lists: Vec<Vec<&str>> = lists.iter().map(Names::all).collect();
    let size = image_size(n, 9);
    let (mut a, mut b) = (vec![0u8; size], vec![0u8; size]);
    let ours = || lists.iter().for_each(|names| build(names, black_box(&mut a)));
    let rust = || lists.iter().for_each(|names| build_rust(names, black_box(&mut b)));
    let times = best(repetitions, lists.len() * n, ours, rust);
    assert!(a == b, "both wrote one image");
    table::row(&format!("build, an entry of {n}"), times, None);
    times
}

// The same list in one call with repeats off, with five words of lent memory for each name; beside the Rust's puts and close.
fn whole_list(n: usize, repetitions: usize) {
    let names = Names::new('p', 9, 0..n);
    let names = names.all();
    let joined = names.concat().into_bytes();
    let ends: Vec<u64> = (1..=n as u64).map(|i| 9 * i).collect();
    let ids: Vec<u32> = (0..n as u32).collect();
    let list = Packed { names: &joined, ends: &ends, ids: &ids };
    let (mut refusals, mut scratch) = (vec![0; n], vec![0; 5 * n]);
    let size = image_size(n, 9);
    let (mut a, mut b) = (vec![0u8; size], vec![0u8; size]);
    let mut one_call = || {
        let answer = archive::build(0, 0, black_box(&mut a), list, &mut refusals, &mut scratch);
        assert_eq!((answer.refusal, answer.size as usize, answer.accepted as usize), (0, size, n));
    };
    let times = best(repetitions, n, &mut one_call, || build_rust(&names, black_box(&mut b)));
    assert!(a == b, "both wrote one image");
    table::row(&format!("a list in one call, repeats off, an entry of {n}"), times, None);
}

// The same list with its last name equal to its first, which is refused with 16. The list without it takes turns with it.
fn refused_name(n: usize, repetitions: usize) {
    let names = Names::new('p', 9, 0..n);
    let clean = names.all().concat().into_bytes();
    let repeated = [&clean[..9 * (n - 1)], &clean[..9]].concat();
    let ends: Vec<u64> = (1..=n as u64).map(|i| 9 * i).collect();
    let ids: Vec<u32> = (0..n as u32).collect();
    let buffers = || (vec![0; n], vec![0; 5 * n], vec![0u8; image_size(n, 9)]);
    let one_call = |names: &[u8], accepted: usize, (refusals, scratch, buf): &mut (Vec<u32>, Vec<u32>, Vec<u8>)| {
        let answer = archive::build(0, 0, black_box(buf), Packed { names, ends: &ends, ids: &ids }, refusals, scratch);
        assert_eq!((answer.refusal, answer.accepted as usize), (0, accepted));
    };
    let (mut a, mut b) = (buffers(), buffers());
    let times = best(repetitions, n, || one_call(&repeated, n - 1, &mut a), || one_call(&clean, n, &mut b));
    table::own_row(&format!("a list in one call, its last name refused, an entry of {n}"), times.0);
    table::own_row(&format!("the same list, no name refused, an entry of {n}"), times.1);
}

// Two closes that are refused: one by the record's length, before the counts are read, and one by the size, after it.
fn count_check() {
    let mut counts = [0; 256];
    let mut buf = vec![0u8; 4096];
    let fresh = archive::begin(0, 1, &mut counts, &buf).record;
    let mut refused = |record: Record, refusal: u32| {
        let calls = 10_000;
        least(500, calls, || {
            for _ in 0..calls {
                let answer = archive::close(black_box(record), &counts, &mut buf);
                assert_eq!(answer.refusal, refusal);
            }
        })
    };
    let before = refused(Record { length: 1, ..fresh }, 2);
    let after = refused(Record { entries: u32::MAX, ..fresh }, 4);
    table::own_row("the check of 256 counts, in each put and close", after - before);
}

pub fn run() {
    let small = building(4_096, 64, 64);
    building(100_000, 1, 200);
    let large = building(1_000_000, 1, 31);
    println!("| build, an entry of 1000000 over one of 4096 | {:.2} | {:.2} | | |", large.0 / small.0, large.1 / small.1);
    whole_list(100, 20_000);
    whole_list(1_000, 5_000);
    whole_list(4_096, 2_000);
    whole_list(100_000, 100);
    whole_list(1_000_000, 31);
    whole_list(1_500_000, 15);
    refused_name(4_096, 2_000);
    refused_name(100_000, 100);
    refused_name(1_000_000, 31);
    count_check();
}

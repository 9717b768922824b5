// Averages (02 (x)): the average search length of 1,000 loads beside the Rust's opening and its lookups of the same names. Ours also
// checks that each load is canonical, byte by byte. Each side's time of a load is the best of five; a row has the mean of
// these 1,000 times.
use crate::archive;
use crate::names::drawn;
use crate::table::{self, best, least};
use cqdb::CQDB;
use std::hint::black_box;

const LOADS: u32 = 1_000;
const ENTRIES: usize = 4_096;

fn lookups(image: &[u8], names: &[String]) -> u64 {
    let db = CQDB::new(image).expect("a load opens");
    names.iter().map(|name| u64::from(db.to_id(name).expect("a name of the load"))).sum()
}

pub fn run() {
    let mut image = vec![0; 157_720];
    let (mut own, mut check, mut rust, mut total) = (0.0, 0.0, 0.0, 0);
    for seed in 0..LOADS {
        assert_eq!(archive::load(seed, &mut image).accepted as usize, ENTRIES);
        let names: Vec<String> = drawn(seed).take(ENTRIES).collect();
        let average = archive::average(&image);
        total += average.quotient * ENTRIES as u64 + average.remainder;
        let ours = || assert_eq!(archive::average(black_box(&image)), average);
        let theirs = || assert_eq!(lookups(black_box(&image), &names), (ENTRIES * (ENTRIES - 1) / 2) as u64);
        let (a, b) = best(5, ENTRIES, ours, theirs);
        own += a;
        rust += b;
        check += least(5, ENTRIES, || assert_eq!(archive::canonical(black_box(&image)), 1));
    }
    let each = f64::from(LOADS);
    table::row(&format!("average of {LOADS} loads, an entry"), (own / each, rust / each), None);
    table::own_row("of this the check that the image is canonical", check / each);
    println!("the average of these {LOADS} loads: {:.4} buckets", total as f64 / (each * ENTRIES as f64));
}

// A whole round of 512 in one call: names in and ids out, all found or none, beside the Rust's loop of `to_id` and our own single calls; ids in
// and names out beside the Rust's loop of `to_str`. The rounds of a run take turns, so that a large image is not read from the cache.
use crate::archive::{self, IdAnswer, StrAnswer};
use crate::names::Names;
use crate::reading::image;
use crate::table::{self, best, least};
use cqdb::CQDB;
use std::hint::black_box;

const NAMES: usize = 512;
const LENGTH: usize = 9;

// Rounds of 512 numbers below n, which has no prime factor but 2 and 5: all different, or each twice in a round. Each round jumps
// about by a step of its own.
fn rounds(n: usize, count: usize, half: bool) -> Vec<Vec<usize>> {
    let number = |round: usize, i: usize| {
        let place = if half { (i * 205) % NAMES / 2 } else { i };
        let step = 10 * (round * 7_919 % 99_991) + 611_951;
        (place * step + round * 104_729) % n
    };
    (0..count).map(|round| (0..NAMES).map(|i| number(round, i)).collect()).collect()
}

// The names of an image begin with p; those that begin with m are not found.
fn names_in(image: &[u8], n: usize, count: usize, repetitions: usize, letter: char, half: bool) {
    let db = CQDB::new(image).expect("an image");
    let joined: Vec<Names> =
        rounds(n, count, half).into_iter().map(|numbers| Names::new(letter, LENGTH, numbers.into_iter())).collect();
    let lists: Vec<Vec<&str>> = joined.iter().map(Names::all).collect();
    let texts: Vec<String> = lists.iter().map(|list| list.concat()).collect();
    let ends: Vec<u64> = (1..=NAMES as u64).map(|i| i * LENGTH as u64).collect();
    let mut answers = vec![IdAnswer { found: 0, id: 0, buckets: 0, offset: 0 }; NAMES];
    let mut ids = [0u32; NAMES];
    let round = || {
        for text in &texts {
            black_box(archive::round(image, text.as_bytes(), &ends, &mut answers));
        }
    };
    let rust = || {
        for list in &lists {
            for (place, name) in ids.iter_mut().zip(list) {
                *place = black_box(&db).to_id(name).unwrap_or(0);
            }
            black_box(&ids);
        }
    };
    let times = best(repetitions, count * NAMES, round, rust);
    let mut places = answers.clone();
    let single = least(repetitions, count * NAMES, || {
        for list in &lists {
            for (place, name) in places.iter_mut().zip(list) {
                *place = archive::to_id(image, name.as_bytes());
            }
            black_box(&places);
        }
    });
    let found = u32::from(letter == 'p');
    assert!(answers == places && answers.iter().all(|a| a.found == found), "all names are found, or none, as by single calls");
    let what = if half { "half repeated" } else { "all different" };
    let what = if found == 1 { what.to_string() } else { format!("{what}, none found") };
    table::row(&format!("round, a name of 512, {what}, {n} entries"), times, None);
    table::own_row(&format!("the same by our single calls, {what}, {n} entries"), single);
}

fn ids_in(image: &[u8], n: usize, count: usize, repetitions: usize) {
    let db = CQDB::new(image).expect("an image");
    let lists: Vec<Vec<u32>> =
        rounds(n, count, false).into_iter().map(|list| list.into_iter().map(|i| i as u32).collect()).collect();
    let mut answers = vec![StrAnswer { found: 0, len: 0, start: 0 }; NAMES];
    let mut places = vec![(0usize, 0usize); NAMES];
    let round = || {
        for list in &lists {
            black_box(archive::name_round(image, list, &mut answers));
        }
    };
    let rust = || {
        for list in &lists {
            for (place, &id) in places.iter_mut().zip(list) {
                *place = black_box(&db).to_str(id).map_or((0, 0), |name| (name.as_ptr() as usize, name.len()));
            }
            black_box(&places);
        }
    };
    table::row(&format!("naming round, an id of 512, {n} entries"), best(repetitions, count * NAMES, round, rust), None);
}

pub fn run() {
    for (n, count, repetitions) in [(4_096, 200, 150), (1_000_000, 2_000, 12)] {
        let image = image(&Names::new('p', LENGTH, 0..n).all());
        for (letter, half) in [('p', false), ('p', true), ('m', false)] {
            names_in(&image, n, count, repetitions, letter, half);
        }
        ids_in(&image, n, count, repetitions);
    }
}

// Changes: all ids that two images name differently, beside two walks by the Rust that compare the names of each id. The images have
// every id from 0 on, so that its walks end at the last one. Alike, and with one name of 100 changed. And whether names and ids of an
// image are one to one, beside a walk by the Rust that looks up each name; it does not check that the image is canonical.
use crate::archive;
use crate::names::{mixed, Names};
use crate::reading::image;
use crate::table::{self, best};
use cqdb::CQDB;
use std::hint::black_box;

fn by_calls(old: &[u8], new: &[u8]) -> usize {
    let (mut changes, mut from) = (0, 0);
    loop {
        let answer = archive::next_change(old, new, from);
        if answer.found == 0 {
            return changes;
        }
        (changes, from) = (changes + 1, u64::from(answer.id) + 1);
    }
}

fn by_walks(old: &CQDB, new: &CQDB) -> usize {
    let differ = |((_, a), (_, b))| a != b;
    old.iter()
        .zip(new.iter())
        .filter(|(a, b)| differ((*a.as_ref().expect("a name"), *b.as_ref().expect("a name"))))
        .count()
}

fn one_to_one(n: usize, image: &[u8], repetitions: usize) {
    let db = CQDB::new(image).expect("an image");
    let ours = || assert_eq!(archive::one_to_one(black_box(image)).ok, 1);
    let by_walk = |db: &CQDB| {
        let steps = db.iter().map(|step| step.expect("a name"));
        steps.filter(|(id, name)| std::str::from_utf8(name).is_ok_and(|name| db.to_id(name) == Some(*id))).count()
    };
    let rust = || assert_eq!(by_walk(black_box(&db)), n);
    table::row(&format!("one to one, an entry of {n}"), best(repetitions, n, ours, rust), None);
}

pub fn run() {
    for (n, repetitions) in [(4_096, 400), (1_000_000, 9)] {
        let (first, other) = (Names::new('n', 9, mixed(n)), Names::new('m', 9, mixed(n)));
        let (names, others) = (first.all(), other.all());
        let later: Vec<&str> = (0..n).map(|i| if i % 100 == 99 { others[i] } else { names[i] }).collect();
        let (old, alike, changed) = (image(&names), image(&names), image(&later));
        for (what, new, changes) in [("alike", &alike, 0), ("1 % changed", &changed, n / 100)] {
            let (before, after) = (CQDB::new(&old).expect("an image"), CQDB::new(new).expect("an image"));
            let ours = || assert_eq!(by_calls(black_box(&old), black_box(new)), changes);
            let rust = || assert_eq!(by_walks(black_box(&before), black_box(&after)), changes);
            table::row(&format!("changes of {n} ids, {what}, an id"), best(repetitions, n, ours, rust), None);
        }
        one_to_one(n, &old, repetitions);
    }
}

// The drop-in: the same lines over the interface of cqdb-rs, built with the Rust crate of this repository and with the original. Ids
// are asked in order and by a walk, names in an order that jumps about. Images are written to a stream in memory that grows, like
// beside like: where repeats are refused, beside the original with a HashSet of the names; where they are taken, beside the original
// as it is, which looks for none.
use crate::names::{mixed, Names};
use crate::reading::image;
use crate::table::{self, best};
use std::collections::HashSet;
use std::hint::black_box;
use std::io::Cursor;

/// The lines of one side, over a crate that is called cqdb in a user's program.
macro_rules! side {
    ($side:ident, $cqdb:ident) => {
        mod $side {
            use std::io::Cursor;
            use $cqdb::{CQDBWriter, CQDB};

            /// Puts the names that `wanted` takes.
            pub fn put<'a>(mut writer: CQDBWriter<&mut Cursor<Vec<u8>>>, names: &[&'a str], mut wanted: impl FnMut(&'a str) -> bool) {
                for (id, name) in names.iter().enumerate() {
                    if wanted(name) {
                        writer.put(name, id as u32).expect("a name that is put once");
                    }
                }
            }

            pub fn open(image: &[u8]) -> CQDB<'_> {
                CQDB::new(image).expect("an image")
            }

            pub fn to_str(db: &CQDB, ids: u32) -> usize {
                (0..ids).map(|id| db.to_str(id).map_or(0, |name| name.as_ptr() as usize ^ name.len())).fold(0, usize::wrapping_add)
            }

            pub fn iter(db: &CQDB) -> usize {
                let mut sum = 0usize;
                for entry in db {
                    let (id, name) = entry.expect("a name");
                    sum = sum.wrapping_add(id as usize ^ name.as_ptr() as usize ^ name.len());
                }
                sum
            }

            pub fn to_id(db: &CQDB, names: &[&str]) -> usize {
                names.iter().filter_map(|name| db.to_id(name)).fold(0, |sum, id| sum.wrapping_add(id as usize))
            }
        }
    };
}

side!(ours, lithwennog);
side!(rust, cqdb);

// The best times of both sides, each asked of its own opened image.
fn sides(repetitions: usize, n: usize, ours: impl Fn() -> usize, rust: impl Fn() -> usize) -> (f64, f64) {
    assert_eq!(ours(), rust(), "the same answers");
    let kept = |answer: usize| {
        black_box(answer);
    };
    best(repetitions, n, || kept(ours()), || kept(rust()))
}

// What a writer leaves in a stream in memory.
fn written(write: impl FnOnce(&mut Cursor<Vec<u8>>)) -> Vec<u8> {
    let mut stream = Cursor::new(Vec::new());
    write(&mut stream);
    stream.into_inner()
}

/// Lists of names, which take turns.
type Lists<'a> = [Vec<&'a str>];

// Both write one image, and both refuse repeats.
fn unique(lists: &Lists, repetitions: usize) {
    let ours = |names: &[&str]| written(|stream| ours::put(lithwennog::CQDBWriter::new(stream).expect("a stream"), names, |_| true));
    let rust = |names: &[&str]| {
        let mut held = HashSet::new();
        written(|stream| rust::put(cqdb::CQDBWriter::new(stream).expect("a stream"), names, |name| held.insert(name)))
    };
    compare("CQDBWriter beside cqdb-rs and a HashSet", lists, repetitions, ours, rust);
}

// Both write one image, and neither looks for repeats.
fn repeated(lists: &Lists, repetitions: usize) {
    let flag = lithwennog::Flag::NONE;
    let ours =
        |names: &[&str]| written(|stream| ours::put(lithwennog::CQDBWriter::with_repeats(stream, flag).expect("a stream"), names, |_| true));
    let rust = |names: &[&str]| written(|stream| rust::put(cqdb::CQDBWriter::new(stream).expect("a stream"), names, |_| true));
    compare("CQDBWriter with repeats", lists, repetitions, ours, rust);
}

fn compare(what: &str, lists: &Lists, repetitions: usize, ours: impl Fn(&[&str]) -> Vec<u8>, rust: impl Fn(&[&str]) -> Vec<u8>) {
    let n = lists[0].len();
    assert!(lists.iter().all(|names| ours(names) == rust(names)), "the same images");
    let all = |write: &dyn Fn(&[&str]) -> Vec<u8>| lists.iter().for_each(|names| drop(black_box(write(names))));
    let times = best(repetitions, lists.len() * n, || all(&ours), || all(&rust));
    table::row(&format!("the crate: {what}, an entry of {n}"), times, None);
}

pub fn run() {
    for (n, lists, repetitions) in [(4_096, 64, 47), (100_000, 1, 100), (1_000_000, 1, 15)] {
        let lists = Names::lists(n, lists);
        let lists: Vec<Vec<&str>> = lists.iter().map(Names::all).collect();
        unique(&lists, repetitions);
        repeated(&lists, repetitions);
    }
    for (n, repetitions) in [(4_096, 3_000), (100_000, 300), (1_000_000, 31)] {
        let image = image(&Names::new('p', 9, 0..n).all());
        let names = Names::new('p', 9, mixed(n));
        let (names, ids) = (names.all(), n as u32);
        let (own, original) = (&ours::open(&image), &rust::open(&image));
        let naming = sides(repetitions, n, || ours::to_str(black_box(own), ids), || rust::to_str(black_box(original), ids));
        table::row(&format!("the crate: to_str in order, {n} entries"), naming, None);
        let walk = sides(repetitions, n, || ours::iter(black_box(own)), || rust::iter(black_box(original)));
        table::row(&format!("the crate: iter, {n} entries"), walk, None);
        let lookup = sides(repetitions.min(300), n, || ours::to_id(black_box(own), &names), || rust::to_id(black_box(original), &names));
        table::row(&format!("the crate: to_id, {n} entries, 9 bytes"), lookup, None);
    }
}

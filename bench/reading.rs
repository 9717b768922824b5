// Reading: open, hits, misses and namings on an image that the Rust wrote, in an order that jumps about.
use crate::archive;
use crate::names::{mixed, Names};
use crate::table::{self, best};
use cqdb::{CQDBWriter, CQDB};
use std::hint::black_box;
use std::io::Cursor;

/// The image that the Rust writes of these names.
pub fn image(names: &[&str]) -> Vec<u8> {
    let mut stream = Cursor::new(Vec::new());
    let mut writer = CQDBWriter::new(&mut stream).expect("a stream in memory");
    for (i, name) in names.iter().enumerate() {
        writer.put(name, i as u32).expect("a stream in memory");
    }
    drop(writer);
    stream.into_inner()
}

// Calls for all items, and adds up the answers. Ours is a call into the archive; the Rust's may be inlined here.
fn each<T>(items: impl IntoIterator<Item = T>, mut call: impl FnMut(T) -> usize) {
    let mut sum = 0usize;
    for item in items {
        sum = sum.wrapping_add(call(item));
    }
    black_box(sum);
}

fn opening(image: &[u8], n: usize) {
    let calls = 1000;
    let ours = || each(0..calls, |_| archive::open(black_box(image)).num as usize);
    let rust = || each(0..calls, |_| CQDB::new(black_box(image)).map_or(0, |db| db.num() as usize));
    table::row(&format!("open, {n} entries"), best(2000, calls, ours, rust), None);
}

// A lookup adds its id, or 0 for nothing.
fn lookups(what: &str, image: &[u8], names: &[&str], repetitions: usize) {
    let db = CQDB::new(image).expect("an image");
    let ours = || each(names, |name| archive::to_id(image, name.as_bytes()).id as usize);
    let rust = || each(names, |name| black_box(&db).to_id(name).unwrap_or(0) as usize);
    let what = format!("{what}, {} entries, {} bytes", names.len(), names[0].len());
    table::row(&what, best(repetitions, names.len(), ours, rust), None);
}

type Place = Option<(*const u8, usize)>;

// A naming adds the place and the length of the name.
fn placed(name: Place) -> usize {
    name.map_or(0, |(start, len)| (start as usize).wrapping_add(len))
}

fn own_place(image: &[u8], id: u32) -> Place {
    let answer = archive::to_str(image, id);
    (answer.found == 1).then(|| (image.as_ptr().wrapping_add(answer.start as usize), answer.len as usize))
}

fn rust_place<'a>(db: &'a CQDB<'a>, id: u32) -> Place {
    db.to_str(id).map(|name| (name.as_ptr(), name.len()))
}

// The Rust behind a call, as ours always is: an archive that is linked later cannot be inlined into its caller.
#[inline(never)]
fn called_place<'a>(db: &'a CQDB<'a>, id: u32) -> Place {
    rust_place(db, id)
}

fn namings(image: &[u8], n: usize, repetitions: usize) {
    let ids: Vec<u32> = mixed(n).map(|i| i as u32).collect();
    let db = CQDB::new(image).expect("an image");
    let ours = || each(&ids, |&id| placed(own_place(image, id)));
    let rust = || each(&ids, |&id| placed(rust_place(black_box(&db), id)));
    let called = || each(&ids, |&id| placed(called_place(black_box(&db), id)));
    table::row(&format!("naming, {n} entries"), best(repetitions, n, ours, rust), None);
    table::row(&format!("naming, {n} entries, the Rust called"), best(repetitions, n, ours, called), None);
}

pub fn run() {
    for (n, repetitions) in [(4_096, 6_000), (1_000_000, 31)] {
        for length in [9, 16, 32] {
            let image = image(&Names::new('p', length, 0..n).all());
            lookups("hit", &image, &Names::new('p', length, mixed(n)).all(), repetitions);
            lookups("miss", &image, &Names::new('m', length, mixed(n)).all(), repetitions);
            if length == 9 {
                namings(&image, n, repetitions);
                opening(&image, n);
            }
        }
    }
}

// Loads (02 (xiii)): the load of a seed beside the Rust's puts of the same names; and bundles of 64 loads of different seeds: opening
// the last one, and the append of the last one, each beside a copy of as many bytes.
use crate::archive;
use crate::table::{self, best};
use cqdb::CQDBWriter;
use std::fmt::Write;
use std::hint::black_box;
use std::io::Cursor;

const ENTRIES: usize = 4_096;
const SIZE: usize = 157_720;
const LOADS: usize = 64;

fn load(seed: u32, buf: &mut [u8]) {
    let answer = archive::load(seed, buf);
    assert_eq!((answer.refusal, answer.accepted as usize), (0, ENTRIES));
}

// The Rust's side makes each name in a text that it uses again.
fn load_rust(seed: u32, buf: &mut [u8]) {
    let mut writer = CQDBWriter::new(Cursor::new(buf)).expect("a stream in memory");
    let (mut s, mut name) = (seed, String::with_capacity(9));
    for id in 0..ENTRIES as u32 {
        s = s.wrapping_mul(1_664_525).wrapping_add(1_013_904_223);
        name.clear();
        write!(name, "P{s:08X}").expect("a text");
        writer.put(&name, id).expect("room");
    }
}

fn building() {
    let (mut a, mut b) = (vec![0; SIZE], vec![0; SIZE]);
    let times = best(300, ENTRIES, || load(black_box(1), &mut a), || load_rust(black_box(1), &mut b));
    assert!(a == b, "both wrote one image");
    table::row("load of a seed, an entry of 4096", times, None);
}

fn bundles() {
    let mut buf = vec![0; LOADS * SIZE];
    let mut image = vec![0; SIZE];
    let mut end = 0;
    for seed in 0..LOADS as u32 {
        load(seed, &mut image);
        end = archive::bundle_append(&mut buf, end, &image).length;
    }
    assert_eq!(end as usize, buf.len());
    let file = buf.clone();
    let mut copy = vec![0u8; file.len()];
    let open = || assert_eq!(archive::bundle_open(black_box(&file), LOADS as u64 - 1).num as usize, ENTRIES);
    let copy_file = || black_box(&mut copy[..]).copy_from_slice(black_box(&file));
    table::row(
        &format!("open the last of {LOADS} loads, beside a copy of the file"),
        best(300, 1, open, copy_file),
        None,
    );
    let before = (file.len() - SIZE) as u64;
    let append = || assert_eq!(archive::bundle_append(black_box(&mut buf), before, black_box(&image)).length, end);
    let mut place = vec![0u8; SIZE];
    let copy_image = || black_box(&mut place[..]).copy_from_slice(black_box(&image));
    let what = format!("append a load to {} others, beside a copy of it", LOADS - 1);
    table::row(&what, best(3_000, 1, append, copy_image), None);
    assert!(buf == file, "the load that was there before");
}

pub fn run() {
    building();
    bundles();
}

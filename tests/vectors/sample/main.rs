// Writes a stored sample of the original's answers: `writing`, what the Rust's writer makes of lists of puts whose names have
// no zero byte, or `reading`, what its reader answers on images of such lists, also with zero bytes in names, and on damaged
// copies of them; or `rotating`, what Rust's own rotate_left gives. The lines are those that the program replay reads.
mod damage;
#[path = "../../../target/oracle/src/hash.rs"]
mod hash;
mod lists;
mod names;
#[path = "../../compare/original.rs"]
mod original;
mod questions;

use lists::List;
use names::Names;
use questions::Questions;

/// A fixed sequence (splitmix64), so that every run writes the same sample.
pub struct Random(u64);

impl Random {
    pub fn below(&mut self, n: usize) -> usize {
        self.0 = self.0.wrapping_add(0x9e37_79b9_7f4a_7c15);
        let mut z = self.0;
        z = (z ^ (z >> 30)).wrapping_mul(0xbf58_476d_1ce4_e5b9);
        z = (z ^ (z >> 27)).wrapping_mul(0x94d0_49bb_1331_11eb);
        ((z ^ (z >> 31)) % n as u64) as usize
    }
}

pub fn hex(bytes: &[u8]) -> String {
    bytes.iter().map(|b| format!("{b:02x}")).collect()
}

// A number, and the name if it is not empty.
pub fn numbered(word: &str, n: u32, name: &[u8]) -> String {
    format!("{word} {n:08x} {}", hex(name)).trim_end().to_string()
}

// The calls of a list, and the size that the Rust's image has.
fn print_calls(list: &List, image: &[u8]) {
    println!("new{} {:08x}", if list.oneway { 1 } else { 2 }, list.length);
    for ((id, name), accepted) in list.puts.iter().zip(list.accepted()) {
        println!("{}", numbered(if accepted { "puts" } else { "full" }, *id, name));
    }
    println!("clos {:08x}", image.len());
}

/// An image as runs of at least eight zeros, and what stands between them in parts of at most 64 bytes.
fn parts(image: &[u8]) -> Vec<(usize, &[u8])> {
    let mut parts = Vec::new();
    let mut at = 0;
    while at < image.len() {
        let zeros = image[at..].iter().take_while(|b| **b == 0).count();
        let run = (at..image.len()).take_while(|i| *i < at + 64 && !image[*i..].starts_with(&[0; 8])).count();
        let n = if zeros >= 8 { zeros } else { run };
        parts.push((at, &image[at..at + n]));
        at += n;
    }
    parts
}

fn is_zeros(part: &[u8]) -> bool {
    part.len() >= 8 && part.iter().all(|b| *b == 0)
}

// All bytes of an image, to be compared.
fn print_bytes(image: &[u8]) {
    for (_, part) in parts(image) {
        if is_zeros(part) {
            println!("nils {:08x}", part.len());
        } else {
            println!("part {}", hex(part));
        }
    }
    println!("last");
}

// Two hashes of an image, as the Rust hashes a name.
fn print_hashes(image: &[u8]) {
    let hashed = |start| hash::jhash(image, image.len() as u32 + 1, start);
    println!("sums {:08x} {:08x}", hashed(0), hashed(0xdead_beef));
}

// All bytes of an image, to be read.
fn print_image(image: &[u8]) {
    println!("zero {:08x}", image.len());
    for (at, part) in parts(image) {
        if !is_zeros(part) {
            println!("edit {at:08x} {}", hex(part));
        }
    }
}

fn writing(lists: &[List]) {
    println!("# Lists of puts, and the images that the Rust makes of them.");
    for (i, list) in lists.iter().map(List::zero_free).enumerate() {
        let image = list.image();
        println!("# {i}: {}", list.title);
        print_calls(&list, &image);
        if i % 5 == 0 {
            print_bytes(&image);
        } else {
            print_hashes(&image);
        }
    }
    eprintln!("sample: {} lists, the images of {} whole, of the others by two hashes", lists.len(), lists.len().div_ceil(5));
}

fn reading(lists: &[List], names: &Names, random: &mut Random) {
    let mut questions = Questions::new();
    let (mut images, mut damaged) = (0, 0);
    println!("# Images that the Rust made, damaged ones, and what it answers on them.");
    for (i, list) in lists.iter().enumerate().filter(|(i, _)| i % 5 == 2) {
        let image = list.image();
        println!("# {i}: {}", list.title);
        print_image(&image);
        questions.about(&image, &list.asked_names(names), &list.asked_ids());
        damaged += damage::copies(&image, list, names, i, random, &mut questions);
        images += 1;
    }
    eprintln!("sample: {} answers on {images} images and {damaged} damaged ones", questions.asked);
}

// For each amount the sum of all rotated words, its high and its low half.
fn rotating() {
    println!("# Rotations by Rust's own rotate_left.");
    for k in 0..32 {
        let (mut x, mut sum) = (0u32, 0u64);
        for _ in 0..131_072 {
            sum += u64::from(x.rotate_left(k));
            x = x.wrapping_mul(1_664_525).wrapping_add(1_013_904_223);
        }
        println!("rota {k:08x} {:08x} {:08x}", sum >> 32, sum & 0xffff_ffff);
    }
}

fn main() {
    let names = Names::new();
    let mut random = Random(20170401);
    let lists = lists::all(&names, &mut random);
    match std::env::args().nth(1).as_deref() {
        Some("writing") => writing(&lists),
        Some("reading") => reading(&lists, &names, &mut random),
        Some("rotating") => rotating(),
        _ => panic!("which sample? writing, reading or rotating"),
    }
}

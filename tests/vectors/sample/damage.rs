// Damaged copies of an image. Each kind changes a word or some bytes, cuts the image or adds to it. The change is undone after
// the questions.
use crate::lists::List;
use crate::names::Names;
use crate::questions::Questions;
use crate::{hex, Random};

const HEAD: usize = 2072;
const KINDS: usize = 24;
const COPIES: usize = 3;

// A copy, and how to undo what was changed.
struct Copy {
    bytes: Vec<u8>,
    undo: Vec<String>,
}

impl Copy {
    fn of(image: &[u8]) -> Copy {
        Copy { bytes: image.to_vec(), undo: Vec::new() }
    }

    fn word(&self, at: usize) -> u32 {
        u32::from_le_bytes(self.bytes[at..at + 4].try_into().expect("four bytes"))
    }

    fn patch(&mut self, at: usize, bytes: &[u8]) {
        let end = at + bytes.len();
        println!("edit {at:08x} {}", hex(bytes));
        self.undo.push(format!("edit {at:08x} {}", hex(&self.bytes[at..end])));
        self.bytes[at..end].copy_from_slice(bytes);
    }

    fn set(&mut self, at: usize, word: u32) {
        self.patch(at, &word.to_le_bytes());
    }

    fn cut(&mut self, n: usize) {
        println!("size {n:08x}");
        self.undo.push(format!("size {:08x}", self.bytes.len()));
        self.bytes.truncate(n);
    }

    fn more(&mut self, bytes: &[u8]) {
        let size = self.bytes.len();
        println!("edit {size:08x} {}", hex(bytes));
        println!("size {:08x}", size + bytes.len());
        self.undo.push(format!("size {size:08x}"));
        self.bytes.extend(bytes);
    }

    fn undone(&self) {
        for line in self.undo.iter().rev() {
            println!("{line}");
        }
    }

    // The rows of the tables with entries.
    fn rows(&self) -> Vec<usize> {
        (24..HEAD).step_by(8).filter(|row| self.word(*row) > 0).collect()
    }

    // The buckets in use.
    fn buckets(&self) -> Vec<usize> {
        let all = self.rows().into_iter().flat_map(|row| (0..self.word(row + 4)).map(move |k| (row, k)));
        all.map(|(row, k)| self.word(row) as usize + 8 * k as usize).filter(|b| self.word(*b + 4) > 0).collect()
    }

    // The links in use.
    fn links(&self) -> Vec<usize> {
        let all = (0..self.word(16)).map(|id| self.word(20) as usize + 4 * id as usize);
        all.filter(|link| self.word(*link) > 0).collect()
    }
}

// Another word: near the one that stands there, near the image's size, or at a limit of 32 bits.
fn other_word(word: u32, size: usize, random: &mut Random) -> u32 {
    let size = size as u32;
    [word.wrapping_add(1), word.wrapping_sub(1), 0, size - 8, size - 7, size, size + 1, u32::MAX, u32::MAX - 7][random.below(9)]
}

fn one_of(places: &[usize], random: &mut Random) -> usize {
    places[random.below(places.len())]
}

// The head, the tables' rows, and the length.
fn change_head(copy: &mut Copy, kind: usize, random: &mut Random) {
    let size = copy.bytes.len();
    let row = 24 + 8 * random.below(256);
    match kind {
        0 => copy.patch(random.below(4), &[random.below(256) as u8]),
        1 => copy.set(4, other_word(copy.word(4), size, random)),
        2 => copy.set(8, random.below(4) as u32),
        3 => copy.set(12, copy.word(12) ^ (1 << random.below(32))),
        4 => copy.set(16, other_word(copy.word(16), size, random)),
        5 => copy.set(20, other_word(copy.word(20), size, random)),
        6 => copy.set(row + 4, [1, 7, u32::MAX][random.below(3)]),
        7 => copy.set(row, other_word(copy.word(row), size, random)),
        8 => (0..3).for_each(|i| copy.set(24 + 8 * (random.below(85) + 85 * i) + 4, u32::MAX)),
        9 => copy.cut([HEAD - 1, HEAD, size - 1, random.below(size)][random.below(4)]),
        10 => copy.cut(HEAD + random.below(size - HEAD + 1)),
        _ => copy.more(&[0xff; 12][..1 + random.below(12)]),
    }
}

// Rows, buckets, entries and links that are in use.
fn change_used(copy: &mut Copy, kind: usize, random: &mut Random) {
    let size = copy.bytes.len();
    let row = one_of(&copy.rows(), random);
    let bucket = one_of(&copy.buckets(), random);
    let entry = copy.word(bucket + 4) as usize;
    let links = copy.links();
    match kind {
        12 => copy.set(row, other_word(copy.word(row), size, random)),
        13 => copy.set(row + 4, other_word(copy.word(row + 4), size, random)),
        14 => copy.set(row + 4, copy.word(row + 4) / 2),
        15 => copy.set(bucket, copy.word(bucket) ^ (1 << random.below(32))),
        16 => copy.set(bucket + 4, other_word(copy.word(bucket + 4), size, random)),
        17 => copy.set(entry, random.below(1000) as u32),
        18 => copy.set(entry + 4, other_word(copy.word(entry + 4), size, random)),
        19 => copy.set(entry + 4, [0, 1, (size - entry - 7) as u32, (size - entry - 6) as u32][random.below(4)]),
        20 => copy.patch(entry + 8, &[random.below(256) as u8]),
        21 => copy.patch(entry + 7 + copy.word(entry + 4) as usize, &[1]),
        22 if !links.is_empty() => copy.set(one_of(&links, random), other_word(copy.word(links[0]), size, random)),
        _ if !links.is_empty() => copy.set(one_of(&links, random), copy.word(one_of(&links, random))),
        _ => copy.set(bucket + 4, 0),
    }
}

/// Prints some damaged copies of an image, each with questions, and gives their number.
pub fn copies(image: &[u8], list: &List, names: &Names, i: usize, random: &mut Random, questions: &mut Questions) -> usize {
    let asked_names: Vec<Vec<u8>> = list.asked_names(names).into_iter().take(3).collect();
    let asked_ids: Vec<u32> = list.asked_ids().into_iter().take(3).collect();
    for copy_number in 0..COPIES {
        println!("# {i}, damaged");
        let mut copy = Copy::of(image);
        let kind = (i / 5 * COPIES + copy_number) % KINDS;
        if kind < 12 || copy.rows().is_empty() {
            change_head(&mut copy, kind % 12, random);
        } else {
            change_used(&mut copy, kind, random);
        }
        questions.about(&copy.bytes, &asked_names, &asked_ids);
        copy.undone();
    }
    COPIES
}

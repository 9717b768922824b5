// Damaged copies of an image: changes of head words, table offsets and numbers, buckets, entries and the back array; images cut
// short or with bytes behind; and several of these together.
use crate::rules::{self, word, HEAD};
use crate::seed::Random;

/// How many kinds of damage there are. They take turns.
pub const KINDS: usize = 24;

type Table = (usize, usize);

/// A copy with damage of one kind.
pub fn copy(random: &mut Random, image: &[u8], kind: usize) -> Vec<u8> {
    let mut made = image.to_vec();
    apply(random, &mut made, kind);
    made
}

fn apply(random: &mut Random, image: &mut Vec<u8>, kind: usize) {
    if image.len() < HEAD {
        return extend(random, image);
    }
    match kind {
        0..=5 => change(random, image, 4 * kind),
        6 => row(random, image, 0),
        7 => row(random, image, 4),
        8 => table_at_limit(random, image),
        9 => back_at_limit(random, image),
        10 => bucket(random, image, 0),
        11 => bucket(random, image, 4),
        12 => full_table(random, image),
        13 => only_used(random, image),
        14 => entry(random, image, 4),
        15 => entry(random, image, 0),
        16 => link(random, image),
        17 => image.truncate(random.below(image.len() + 1)),
        18 => extend(random, image),
        19 => some_bytes(random, image),
        20 => image.truncate(random.pick(&[0, 1, 23, 2070, 2071, 2072, 2073]).min(image.len())),
        21 => entry_at_end(random, image),
        22 => numbers_alone(random, image),
        _ => several(random, image),
    }
}

fn store(image: &mut [u8], at: usize, v: u32) {
    if at + 4 <= image.len() {
        image[at..at + 4].copy_from_slice(&v.to_le_bytes());
    }
}

// Another value for the word at `at`: near the old one, near the image's size, near the limits of a word, or any.
fn change(random: &mut Random, image: &mut [u8], at: usize) {
    if at + 4 > image.len() {
        return;
    }
    let (old, size) = (word(image, at), image.len() as u32);
    let v = match random.below(6) {
        0 => random.pick(&[old.wrapping_add(1), old.wrapping_sub(1), old.wrapping_mul(2), old / 2, !old]),
        1 => random.pick(&[0, 1, 2, 8, 2071, 2072]),
        2 => size.wrapping_add(random.below(24) as u32).wrapping_sub(12),
        3 => random.pick(&[size / 4, size / 8, 0x7fff_ffff, 0x8000_0000, 0xffff_fff7, 0xffff_fff8, 0xffff_ffff]),
        4 => random.below(image.len()) as u32,
        _ => random.word(),
    };
    store(image, at, v);
}

/// The tables with buckets that lie in the image: number, and where its row stands.
pub fn tables(image: &[u8]) -> Vec<Table> {
    let lies = |t: &usize| {
        let (offset, n) = rules::table(image, *t);
        offset > 0 && n > 0 && offset + 8 * n <= image.len() as u64
    };
    (0..256).filter(lies).map(|t| (t, 24 + 8 * t)).collect()
}

fn some_table(random: &mut Random, image: &[u8]) -> Option<Table> {
    let all = tables(image);
    (!all.is_empty()).then(|| all[random.below(all.len())])
}

// The rows of tables with and without entries.
fn row(random: &mut Random, image: &mut [u8], within: usize) {
    let any = random.below(256);
    let at = match some_table(random, image) {
        Some((_, at)) if !random.once_in(3) => at,
        _ => 24 + 8 * any,
    };
    change(random, image, at + within);
}

// A table that ends at the image's end, or one or two bytes or buckets before or past it.
fn table_at_limit(random: &mut Random, image: &mut [u8]) {
    let t = some_table(random, image).map_or(7, |(t, _)| t);
    let (offset, n) = rules::table(image, t);
    let size = image.len() as u64;
    if random.once_in(2) {
        let near = size.saturating_sub(8 * n) + random.below(3) as u64;
        store(image, 24 + 8 * t, near.saturating_sub(1) as u32);
    } else {
        let near = (size.saturating_sub(offset)) / 8 + random.below(3) as u64;
        store(image, 28 + 8 * t, near.saturating_sub(1) as u32);
    }
}

fn back_at_limit(random: &mut Random, image: &mut [u8]) {
    let (offset, n, size) = (rules::back_offset(image), rules::back_size(image), image.len() as u64);
    if random.once_in(2) {
        let near = size.saturating_sub(4 * n) + random.below(3) as u64;
        store(image, 20, near.saturating_sub(1) as u32);
    } else {
        let near = size.saturating_sub(offset) / 4 + random.below(3) as u64;
        store(image, 16, near.saturating_sub(1) as u32);
    }
}

// A word of a bucket: any value, or that of another entry.
fn bucket(random: &mut Random, image: &mut [u8], within: usize) {
    let Some((t, _)) = some_table(random, image) else { return };
    let (offset, n) = rules::table(image, t);
    let at = offset as usize + 8 * random.below(n as usize) + within;
    match some_entry(random, image) {
        Some(entry) if within == 4 && random.once_in(2) => store(image, at, entry as u32),
        _ => change(random, image, at),
    }
}

// A table without an empty bucket.
fn full_table(random: &mut Random, image: &mut [u8]) {
    let Some((t, _)) = some_table(random, image) else { return };
    let (offset, n) = rules::table(image, t);
    for k in 0..n as usize {
        let at = offset as usize + 8 * k;
        if word(image, at + 4) == 0 {
            store(image, at, random.word());
            store(image, at + 4, 1 + random.word() / 2);
        }
    }
}

// A smaller number of buckets, so that the table may be full and its searches begin elsewhere.
fn only_used(random: &mut Random, image: &mut [u8]) {
    let Some((t, row)) = some_table(random, image) else { return };
    let (_, n) = rules::table(image, t);
    let fewer = 1 + random.below(n as usize);
    store(image, row + 4, fewer as u32);
}

// An entry that a bucket points to.
fn some_entry(random: &mut Random, image: &[u8]) -> Option<usize> {
    let (t, _) = some_table(random, image)?;
    let (offset, n) = rules::table(image, t);
    let at = |k: usize| word(image, offset as usize + 8 * k + 4) as usize;
    let used: Vec<usize> = (0..n as usize).map(at).filter(|&at| at > 0 && at + 8 <= image.len()).collect();
    (!used.is_empty()).then(|| used[random.below(used.len())])
}

// A bucket or link that held an entry's offset takes a copy of it at the image's end: without its zero byte, which need not
// lie in the image, and with one byte more or less.
fn entry_at_end(random: &mut Random, image: &mut Vec<u8>) {
    let Some(at) = some_entry(random, image) else { return };
    let mut length = word(image, at + 4) as usize;
    if length == 0 || at + 8 + length > image.len() {
        return;
    }
    let end = image.len();
    let words: Vec<usize> = (HEAD..end - 3).filter(|&i| word(image, i) as usize == at).collect();
    image.extend_from_within(at..at + 8);
    if random.once_in(3) {
        store(image, end + 4, 1);
        length = 1;
    }
    image.extend_from_within(at + 8..at + 7 + length);
    image.truncate(image.len() - random.below(2));
    image.extend(random.bytes(1).into_iter().take(random.below(2)));
    words.into_iter().for_each(|i| store(image, i, end as u32));
}

// Tables with bucket numbers and offset 0: they count in num, which may pass 2^32, and are never searched.
fn numbers_alone(random: &mut Random, image: &mut [u8]) {
    for _ in 0..1 + random.below(4) {
        let t = random.below(256);
        let number = random.pick(&[1, 7, 0x8000_0000, 0xffff_fffe, 0xffff_ffff]);
        store(image, 24 + 8 * t, 0);
        store(image, 28 + 8 * t, number);
    }
}

// An entry's length word, also such that its name ends with the image; or its id, name and zero byte.
fn entry(random: &mut Random, image: &mut [u8], within: usize) {
    let Some(at) = some_entry(random, image) else { return };
    let length = word(image, at + 4) as usize;
    let to_end = image.len() - at - 8 + 1;
    match (within, random.below(3)) {
        (4, 0) => store(image, at + 4, (to_end + random.below(3)).saturating_sub(1) as u32),
        (4, 1) => store(image, at + 4, random.pick(&[0, 1, length as u32 + 1, length as u32 - 1])),
        (4, _) => change(random, image, at + 4),
        (_, 0) => change(random, image, at),
        _ => {
            let place = (at + 8 + random.below(length.clamp(1, 300))).min(image.len() - 1);
            image[place] ^= 1 << random.below(8);
        }
    }
}

// A word of the back array: any value, or another entry.
fn link(random: &mut Random, image: &mut [u8]) {
    let (offset, n) = (rules::back_offset(image), rules::back_size(image));
    if offset == 0 || n == 0 || offset + 4 * n > image.len() as u64 {
        return change(random, image, 20);
    }
    let at = offset as usize + 4 * random.below(n as usize);
    match some_entry(random, image) {
        Some(entry) if random.once_in(2) => store(image, at, entry as u32),
        _ => change(random, image, at),
    }
}

fn extend(random: &mut Random, image: &mut Vec<u8>) {
    let n = 1 + random.below(40);
    image.extend(random.bytes(n));
}

fn some_bytes(random: &mut Random, image: &mut [u8]) {
    for _ in 0..1 + random.below(8) {
        let at = random.below(image.len());
        image[at] = random.word() as u8;
    }
}

fn several(random: &mut Random, image: &mut Vec<u8>) {
    for _ in 0..2 + random.below(3) {
        let kind = random.below(KINDS - 1);
        apply(random, image, kind);
    }
}

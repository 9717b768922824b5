// Is this image canonical? cqdb_canonical, held to 02 (ix) told once more in plain Rust: the entries are read back, their image is
// made anew, and the answer is yes exactly when the bytes are the same. Asked of images of lists, of the Rust's own images, of
// every kind of damage, of images that are wrong in one thing alone, of large ones, and of all single-byte changes of small images.
// canonical [COPIES]
mod archive;
mod damage;
mod names;
mod original;
mod rules;
mod seed;
mod tally;

use names::Names;
use original::Put;
use rules::{hash, word, HEAD};
use seed::Random;
use tally::Tally;

const COPIES: usize = 240_000;
const COPIES_OF_ONE: usize = 4 * damage::KINDS;

fn store(image: &mut [u8], at: usize, v: u32) {
    image[at..at + 4].copy_from_slice(&v.to_le_bytes());
}

// The entries of a list, one after the other from 2,072 on, and where each stands.
fn place(puts: &[Put]) -> (Vec<u8>, Vec<u32>) {
    let (mut bytes, mut places) = (Vec::new(), Vec::new());
    for (name, id) in puts {
        places.push((HEAD + bytes.len()) as u32);
        bytes.extend_from_slice(&id.to_le_bytes());
        bytes.extend_from_slice(&(name.len() as u32 + 1).to_le_bytes());
        bytes.extend_from_slice(name);
        bytes.push(0);
    }
    (bytes, places)
}

// 01, "The image record", from its paragraphs: the image that these puts close to, or none where its size is no word.
fn image_of(oneway: bool, puts: &[Put]) -> Option<Vec<u8>> {
    let (entries, places) = place(puts);
    let mut tables: Vec<Vec<(u32, u32)>> = vec![Vec::new(); 256];
    for (put, &at) in puts.iter().zip(&places) {
        let h = hash(&put.0);
        tables[h as usize % 256].push((h, at));
    }
    let back = if oneway { 0 } else { puts.iter().map(|put| put.1 as usize + 1).max().unwrap_or(0) };
    let mut at = HEAD + entries.len();
    let size = at + 16 * puts.len() + 4 * back;
    if size > u32::MAX as usize {
        return None;
    }
    let mut image = vec![0; size];
    image[..4].copy_from_slice(b"CQDB");
    store(&mut image, 4, size as u32);
    store(&mut image, 8, oneway as u32);
    store(&mut image, 12, 0x62445371);
    image[HEAD..at].copy_from_slice(&entries);
    for (t, table) in tables.iter().enumerate().filter(|(_, table)| !table.is_empty()) {
        let n = 2 * table.len();
        store(&mut image, 24 + 8 * t, at as u32);
        store(&mut image, 28 + 8 * t, n as u32);
        for &(h, entry) in table {
            let mut search = (0..n).map(|k| at + 8 * ((h as usize / 256 + k) % n));
            let free = search.find(|bucket| word(&image, bucket + 4) == 0).expect("an empty bucket");
            store(&mut image, free, h);
            store(&mut image, free + 4, entry);
        }
        at += 8 * n;
    }
    if back > 0 {
        store(&mut image, 16, back as u32);
        store(&mut image, 20, at as u32);
    }
    for (put, &entry) in puts.iter().zip(&places).filter(|_| !oneway) {
        store(&mut image, at + 4 * put.1 as usize, entry);
    }
    Some(image)
}

// The entries that an image would have: as many as half the sum of its bucket numbers, whole, with names free of zero bytes.
fn entries(image: &[u8]) -> Option<Vec<Put>> {
    let sum: u64 = (0..256).map(|t| rules::table(image, t).1).sum();
    let (mut rest, mut puts) = (&image[HEAD..], Vec::new());
    for _ in 0..sum / 2 {
        let (id, length) = (rest.get(..4)?, rest.get(4..8)?);
        let length = word(length, 0) as usize;
        let (name, last) = rest.get(8..8 + length)?.split_at(length.checked_sub(1)?);
        if last != [0] || name.contains(&0) {
            return None;
        }
        puts.push((name.to_vec(), word(id, 0)));
        rest = &rest[8 + length..];
    }
    (sum % 2 == 0).then_some(puts)
}

// Yes exactly when the rebuilt bytes are the same.
fn rule(image: &[u8]) -> bool {
    if image.len() < HEAD || word(image, 8) > 1 {
        return false;
    }
    // An id that no back array of this length has room for is not built.
    let Some(puts) = entries(image) else { return false };
    let oneway = word(image, 8) == 1;
    let room = |put: &Put| oneway || HEAD + 4 * put.1 as usize <= image.len();
    puts.iter().all(room) && image_of(oneway, &puts).is_some_and(|built| built == image)
}

#[derive(Default)]
struct Run {
    tally: Tally,
    images: u64,
    yes: u64,
}

impl Run {
    fn ask(&mut self, image: &[u8], what: impl FnOnce() -> String) -> bool {
        let answer = rule(image);
        self.tally.rule(archive::canonical(image), u32::from(answer), what);
        self.images += 1;
        self.yes += u64::from(answer);
        answer
    }

    // One that must be a yes, or a no, whatever the rule of this program says.
    fn expect(&mut self, wanted: bool, image: &[u8], what: &str) {
        let answer = self.ask(image, || what.into());
        self.tally.rule(answer, wanted, || format!("the rule of this program: {what}"));
    }
}

// The image of a list by the archive's own begin, put and close, in a buffer of other bytes with room behind.
fn closed(random: &mut Random, oneway: bool, puts: &[Put]) -> Vec<u8> {
    let largest = puts.iter().map(|put| put.1 as usize + 1).max().unwrap_or(0);
    let mut buf = random.bytes(HEAD + puts.iter().map(|put| put.0.len() + 25).sum::<usize>() + 4 * largest + 99);
    let mut counts = [0; 256];
    let mut record = archive::begin(oneway as u32, 1, &mut counts, &buf).record;
    for (name, id) in puts {
        record = archive::put(record, &mut counts, &mut buf, name, *id).record;
    }
    let answer = archive::close(record, &counts, &mut buf);
    assert_eq!(answer.refusal, 0, "there is room for all puts");
    buf.truncate(answer.size as usize);
    buf
}

// The list's image by this program, by the archive and by the Rust; one byte more and one less; and the same puts otherwise.
fn lists(run: &mut Run, random: &mut Random, puts: &[Put]) -> Vec<u8> {
    let oneway = random.once_in(3);
    let image = image_of(oneway, puts).expect("a small image");
    run.expect(true, &image, "the image of a list");
    run.tally.bytes(&closed(random, oneway, puts), &image, || "the archive's image of a list".into());
    run.expect(true, &original::image(oneway, puts), "the Rust's image of a list");
    let behind = [&image[..], &[random.below(256) as u8]].concat();
    run.expect(false, &behind, "one byte behind");
    run.expect(false, &image[..image.len() - 1], "one byte missing");
    image
}

// Words changed in one thing alone, each of which makes the image another's or nobody's.
fn one_thing(run: &mut Run, random: &mut Random, image: &[u8], puts: &[Put]) {
    let mut ask = |at: usize, v: u32, what: &str| {
        let mut copy = image.to_vec();
        if at + 4 <= copy.len() && word(&copy, at) != v {
            store(&mut copy, at, v);
            run.expect(false, &copy, what);
        }
    };
    let size = image.len() as u32;
    ask(4, size - 1, "a size word below the length");
    ask(4, size + 1, "a size word above the length");
    ask(8, 2, "a flag word that is neither 0 nor 1");
    let absent: Vec<usize> = (0..256).filter(|&t| rules::table(image, t).1 == 0).collect();
    if !absent.is_empty() {
        let t = absent[random.below(absent.len())];
        ask(24 + 8 * t, size - 8 * random.below(3) as u32, "an absent table with an offset");
    }
    for (t, _) in damage::tables(image).into_iter().take(3) {
        let (offset, n) = rules::table(image, t);
        let bucket = |k: u64| (offset + 8 * (k % n)) as usize;
        let empty = (0..n).find(|&k| word(image, bucket(k) + 4) == 0).expect("half are empty");
        ask(bucket(empty), 1 + random.below(1000) as u32, "a stale hash word in an empty bucket");
        let used = (0..n).find(|&k| word(image, bucket(k) + 4) != 0).expect("half are used");
        ask(bucket(used), word(image, bucket(used)) ^ 256, "another hash word");
    }
    if rules::back_size(image) > 0 && puts.len() > 1 {
        let places = place(puts).1;
        let (i, j) = (random.below(puts.len()), random.below(puts.len()));
        let link = rules::back_offset(image) as usize + 4 * puts[i].1 as usize;
        ask(link, places[j], "a link to another entry");
        ask(link, 0, "no link to an entry");
    }
}

// An entry one bucket late, two entries of a table exchanged, and a name with a zero byte in an image that is otherwise made
// by the rules.
fn misplaced(run: &mut Run, random: &mut Random, image: &[u8], puts: &[Put]) {
    for (t, _) in damage::tables(image).into_iter().take(4) {
        let (offset, n) = rules::table(image, t);
        let bucket = |k: u64| (offset + 8 * (k % n)) as usize;
        let late = (0..n).find(|&k| word(image, bucket(k) + 4) != 0 && word(image, bucket(k + 1) + 4) == 0);
        let at = late.expect("half are used");
        let mut copy = image.to_vec();
        copy.copy_within(bucket(at)..bucket(at) + 8, bucket(at + 1));
        copy[bucket(at)..bucket(at) + 8].fill(0);
        run.expect(false, &copy, "an entry one bucket late");
        let used: Vec<u64> = (0..n).filter(|&k| word(image, bucket(k) + 4) != 0).collect();
        let (a, b) = (bucket(used[random.below(used.len())]), bucket(used[random.below(used.len())]));
        let mut copy = image.to_vec();
        copy.copy_within(a..a + 8, b);
        copy[a..a + 8].copy_from_slice(&image[b..b + 8]);
        run.ask(&copy, || "two buckets exchanged".into());
    }
    let mut spoilt = puts.to_vec();
    spoilt.push((b"a\0b".to_vec(), 3));
    let spoilt = image_of(random.once_in(2), &spoilt).expect("a small image");
    run.expect(false, &spoilt, "a name with a zero byte");
}

// An image of more than 1 MiB, and damaged copies of it.
fn large(run: &mut Run, random: &mut Random) {
    let puts: Vec<Put> = (0..32_000).map(|i| (format!("prism {i:06}").into_bytes(), random.below(32_000) as u32)).collect();
    let image = lists(run, random, &puts);
    assert!(image.len() > 1 << 20, "a large image");
    one_thing(run, random, &image, &puts);
    misplaced(run, random, &image, &puts);
    for kind in 0..2 * damage::KINDS {
        let copy = damage::copy(random, &image, kind % damage::KINDS);
        run.ask(&copy, || format!("damage of kind {} in a large image", kind % damage::KINDS));
    }
}

// Every byte of a small image with each of the 255 other values.
fn every_byte(run: &mut Run, image: &[u8]) {
    let mut copy = image.to_vec();
    for i in 0..image.len() {
        for change in 1..=255 {
            copy[i] = image[i] ^ change;
            run.ask(&copy, || format!("byte {i} of {} as {}", image.len(), image[i] ^ change));
        }
        copy[i] = image[i];
    }
}

fn main() {
    let copies = std::env::args().nth(1).map_or(COPIES, |text| text.parse().expect("a number of copies"));
    let mut random = Random::new();
    println!("canonical: seed {}", random.seed);
    let names = Names::new(&mut random);
    let mut run = Run::default();
    for _ in 0..copies.div_ceil(COPIES_OF_ONE) {
        let mut puts = names.list(&mut random, 30);
        puts.retain(|put| !put.0.contains(&0));
        let image = lists(&mut run, &mut random, &puts);
        one_thing(&mut run, &mut random, &image, &puts);
        misplaced(&mut run, &mut random, &image, &puts);
        for kind in 0..COPIES_OF_ONE {
            let copy = damage::copy(&mut random, &image, kind % damage::KINDS);
            run.ask(&copy, || format!("damage of kind {}", kind % damage::KINDS));
        }
    }
    for _ in 0..4 {
        large(&mut run, &mut random);
    }
    println!("canonical: {} images, four of them large with their copies; {} of them canonical", run.images, run.yes);
    let before = (run.images, run.yes);
    let prism = |text: &str, id: u32| (text.as_bytes().to_vec(), id);
    let renewed = [prism("A", 0), prism("B", 2), prism("A", 5), prism("", 2)];
    let small = [(false, &renewed[..0]), (true, &renewed[..0]), (false, &renewed[..2]), (true, &renewed), (false, &renewed)];
    for (oneway, puts) in small {
        every_byte(&mut run, &image_of(oneway, puts).expect("a small image"));
    }
    println!(
        "canonical: all {} single-byte changes of {} small images, {} of them canonical",
        run.images - before.0,
        small.len(),
        run.yes - before.1
    );
    run.tally.end("canonical");
}

// The average search length and its histogram through the archive, held to 02 (x) told once more in plain Rust: on images of random
// puts, repeated names among them, on damaged copies, on loads, and on images that are not canonical.   average [IMAGES]
mod archive;
mod damage;
mod made;
mod plain;
mod rules;
mod seed;
mod tally;

use archive::AverageAnswer;
use made::made;
use plain::Put;
use rules::word;
use seed::Random;
use tally::Tally;

const IMAGES: usize = 20_000;

// 01, "Looking up a name": how many buckets are read until the first that has the name's hash and an entry with the name. In a
// canonical image there is one.
fn search_length(image: &[u8], name: &[u8]) -> u64 {
    let h = plain::hash(name);
    let (offset, n) = rules::table(image, h as usize % 256);
    let entry_has =
        |at: usize| word(image, at + 4) as usize == name.len() + 1 && &image[at + 8..at + 8 + name.len()] == name;
    let decides = |read: &u64| {
        let bucket = (offset + 8 * ((u64::from(h) / 256 + read) % n)) as usize;
        word(image, bucket) == h && entry_has(word(image, bucket + 4) as usize)
    };
    1 + (0..n).find(decides).expect("each entry's name is found")
}

// "The total of buckets read when the name of each entry is looked up, divided by the number of entries, as whole quotient and
// remainder"; "an image that (ix) says no to gives 17, then one without entries gives 18". And how many entries have each length.
fn rule(image: &[u8]) -> (AverageAnswer, Option<[u32; 16]>) {
    let refused = |refusal| (AverageAnswer { refusal, entries: 0, quotient: 0, remainder: 0 }, None);
    let Some(puts) = made(image) else { return refused(17) };
    if puts.is_empty() {
        return refused(18);
    }
    let (mut total, mut counts) = (0, [0; 16]);
    for (name, _) in &puts {
        let length = search_length(image, name);
        total += length;
        counts[length.min(16) as usize - 1] += 1;
    }
    let n = puts.len() as u64;
    (AverageAnswer { refusal: 0, entries: n as u32, quotient: total / n, remainder: total % n }, Some(counts))
}

#[derive(Default)]
struct Run {
    tally: Tally,
    images: u64,
    accepted: u64,
    refused: [u64; 2],
    // Entries whose name stands before, and entries that are found after 16 buckets or more.
    repeated: u64,
    long: u64,
}

impl Run {
    fn hold(&mut self, random: &mut Random, image: &[u8]) {
        let (wanted, counts) = rule(image);
        self.tally.rule(archive::average(image), wanted, || format!("an image of {} bytes", image.len()));
        let before = [(); 16].map(|()| random.word());
        let mut after = before;
        let refusal = archive::lengths(image, &mut after);
        self.tally.rule(refusal, wanted.refusal, || format!("the counts of {} bytes", image.len()));
        self.tally.rule(after, counts.unwrap_or(before), || format!("the counts of {} bytes", image.len()));
        self.images += 1;
        match wanted.refusal {
            0 => self.accepted += 1,
            k => self.refused[k as usize - 17] += 1,
        }
        self.long += u64::from(counts.map_or(0, |counts| counts[15]));
    }
}

// Puts of names that repeat: from one name for all to mostly different ones.
fn some_puts(random: &mut Random) -> Vec<Put> {
    let n = random.pick(&[0, 1, 2, 5, 20, 60, 200]);
    let names = random.pick(&[1, 2, 7, 40, 1_000]);
    (0..n).map(|_| (format!("p{}", random.below(names)).into_bytes(), random.below(n + 3) as u32)).collect()
}

// Forty names of one table whose searches begin in the first four of its 80 buckets, each put once: they are found after up to
// forty buckets.
fn crowded(random: &mut Random) -> Vec<Put> {
    let table = random.below(256) as u32;
    let crowd = |name: &Vec<u8>| plain::hash(name) % 256 == table && plain::hash(name) / 256 % 80 < 4;
    (0..).map(|_| random.word().to_string().into_bytes()).filter(crowd).take(40).zip(0..).collect()
}

fn repeats(puts: &[Put]) -> u64 {
    let mut names: Vec<&[u8]> = puts.iter().map(|put| &put.0[..]).collect();
    names.sort();
    names.windows(2).filter(|two| two[0] == two[1]).count() as u64
}

// An image, and some copies of it that are not canonical.
fn image(run: &mut Run, random: &mut Random, puts: &[Put]) {
    let image = plain::image(random.once_in(3), puts);
    run.repeated += repeats(puts);
    run.hold(random, &image);
    for _ in 0..4 {
        let kind = random.below(damage::KINDS);
        let copy = damage::copy(random, &image, kind);
        run.hold(random, &copy);
    }
}

// The totals that are known of loads.
fn loads(run: &mut Run, random: &mut Random) {
    for (seed, more) in [(0, 1_577), (1, 1_779), (u32::MAX, 1_599)] {
        let mut load = vec![0; 157_720];
        archive::load(seed, &mut load);
        let known = AverageAnswer { refusal: 0, entries: 4_096, quotient: 1, remainder: more };
        run.tally.rule(archive::average(&load), known, || format!("the load of seed {seed}"));
        run.hold(random, &load);
    }
}

fn main() {
    let images = std::env::args().nth(1).map_or(IMAGES, |text| text.parse().expect("a number of images"));
    let mut random = Random::new();
    println!("average: seed {}", random.seed);
    let mut run = Run::default();
    loads(&mut run, &mut random);
    for i in 0..images {
        let puts = if i % 500 == 0 { crowded(&mut random) } else { some_puts(&mut random) };
        image(&mut run, &mut random, &puts);
    }
    println!(
        "average: {} images, {} of them averaged, {} refused with 17 and {} with 18; {} entries had a name once more, {} were found after 16 buckets or more",
        run.images, run.accepted, run.refused[0], run.refused[1], run.repeated, run.long
    );
    println!("average: {} answers compared with 02's rule: {} different", run.tally.rule, run.tally.different);
    std::process::exit(i32::from(run.tally.different > 0));
}

// Names and ids one to one through the archive, held to the rule told twice in plain Rust: by lookups of each entry of the image, and
// by the puts alone, of which the first has a name's id and the last an id's name. On images of lists with repeated names, repeated
// ids and equal puts, one-way and two-way, on their damaged copies, on large images and on any bytes.   one_to_one [LISTS]
mod archive;
mod damage;
mod made;
mod plain;
mod rules;
mod seed;
mod tally;

use archive::OneToOneAnswer;
use made::made;
use plain::{Put, HEAD};
use seed::Random;
use std::collections::HashMap;
use tally::Tally;

const LISTS: usize = 25_000;

const YES: OneToOneAnswer = OneToOneAnswer { refusal: 0, ok: 1, kind: 0, offset: 0 };
const REFUSED: OneToOneAnswer = OneToOneAnswer { refusal: 17, ok: 0, kind: 0, offset: 0 };

// "The offset of the first entry, in put order, for which this fails, and which of the two fails first: 1, its name finds another id;
// 2, its id gives another name." In a one-way image only the name is asked.
fn first_that_fails<'a>(
    oneway: bool,
    puts: &[Put],
    id_of: impl Fn(&[u8]) -> Option<u32>,
    name_of: impl Fn(u32) -> Option<&'a [u8]>,
) -> OneToOneAnswer {
    let mut offset = HEAD as u32;
    for (name, id) in puts {
        let fails = |kind| OneToOneAnswer { refusal: 0, ok: 0, kind, offset };
        if id_of(name) != Some(*id) {
            return fails(1);
        }
        if !oneway && name_of(*id) != Some(name) {
            return fails(2);
        }
        offset += 9 + name.len() as u32;
    }
    YES
}

// By 01's lookups in the image.
fn by_lookups(image: &[u8], oneway: bool, puts: &[Put]) -> OneToOneAnswer {
    let id_of = |name: &[u8]| rules::to_id_by(plain::hash, image, name).id;
    let name_of = |id| rules::to_str(image, id).map(|(start, len)| &image[start..start + len]);
    first_that_fails(oneway, puts, id_of, name_of)
}

// By the puts alone.
fn by_puts(oneway: bool, puts: &[Put]) -> OneToOneAnswer {
    let last: HashMap<u32, &[u8]> = puts.iter().map(|put| (put.1, &put.0[..])).collect();
    let first: HashMap<&[u8], u32> = puts.iter().rev().map(|put| (&put.0[..], put.1)).collect();
    first_that_fails(oneway, puts, |name| first.get(name).copied(), |id| last.get(&id).copied())
}

#[derive(Default)]
struct Run {
    tally: Tally,
    images: u64,
    oneway: u64,
    // One to one, another id, another name, refused; and those without entries, and with an entry put twice.
    yes: u64,
    kinds: [u64; 2],
    refused: u64,
    empty: u64,
    equal: u64,
    // Entries that fail behind the first one.
    later: u64,
}

impl Run {
    fn hold(&mut self, image: &[u8]) {
        let given = archive::one_to_one(image);
        let what = || format!("an image of {} bytes", image.len());
        self.images += 1;
        let Some(puts) = made(image) else {
            self.refused += 1;
            return self.tally.rule(given, REFUSED, what);
        };
        let oneway = rules::word(image, 8) == 1;
        self.tally.rule(given, by_puts(oneway, &puts), what);
        self.tally.rule(given, by_lookups(image, oneway, &puts), what);
        self.count(given, oneway, &puts);
    }

    fn count(&mut self, given: OneToOneAnswer, oneway: bool, puts: &[Put]) {
        self.oneway += u64::from(oneway);
        self.empty += u64::from(puts.is_empty());
        self.later += u64::from(given.offset > HEAD as u32);
        match given.kind {
            0 => self.yes += 1,
            kind => self.kinds[kind as usize - 1] += 1,
        }
        let mut sorted: Vec<&Put> = puts.iter().collect();
        sorted.sort();
        self.equal += u64::from(given.ok == 1 && sorted.windows(2).any(|two| two[0] == two[1]));
    }
}

// A list that is one to one; then, most of the time, a few puts more, each of a name that is there, of an id that is there, of both,
// or of an entry that is there.
fn list(random: &mut Random) -> Vec<Put> {
    let n = random.pick(&[0, 1, 2, 3, 8, 30, 120]);
    let step = 1 + random.below(3) as u32;
    let mut puts: Vec<Put> = (0..n).map(|i| (format!("p{i}").into_bytes(), step * (i as u32 ^ 1))).collect();
    for _ in 0..random.pick(&[0, 0, 1, 1, 2, 5]).min(n) {
        let (a, b) = (puts[random.below(puts.len())].clone(), puts[random.below(puts.len())].clone());
        let fresh = puts.len() as u32 * 4;
        let more = match random.below(4) {
            0 => (a.0, fresh),
            1 => (format!("q{fresh}").into_bytes(), a.1),
            2 => (a.0, b.1),
            _ => a,
        };
        let at = random.below(puts.len() + 1);
        puts.insert(at, more);
    }
    puts
}

// An image of each direction, and a damaged copy of each. A copy with another name at an id, or with a link to another entry, opens.
fn images(run: &mut Run, random: &mut Random, turn: usize) {
    let puts = list(random);
    for oneway in [false, true] {
        let image = plain::image(oneway, &puts);
        run.hold(&image);
        let copy = damage::copy(random, &image, turn % damage::KINDS);
        run.hold(&copy);
    }
}

// A large list that is one to one, then with one put more: of a name that is there, and of an id that is there.
fn large(run: &mut Run, random: &mut Random, n: usize) {
    let puts: Vec<Put> = (0..n as u32).map(|i| (format!("prism {i}").into_bytes(), n as u32 - 1 - i)).collect();
    let (some, at) = (random.below(n), random.below(n));
    for more in [None, Some((puts[some].0.clone(), n as u32)), Some((b"more".to_vec(), puts[some].1))] {
        let list: Vec<Put> = puts[..at].iter().cloned().chain(more).chain(puts[at..].iter().cloned()).collect();
        for oneway in [false, true] {
            run.hold(&plain::image(oneway, &list));
        }
    }
}

fn main() {
    let lists = std::env::args().nth(1).map_or(LISTS, |text| text.parse().expect("a number of lists"));
    let mut random = Random::new();
    println!("one_to_one: seed {}", random.seed);
    let mut run = Run::default();
    for turn in 0..lists {
        images(&mut run, &mut random, turn);
    }
    for n in [4_096, 4_096, 100_000] {
        large(&mut run, &mut random, n);
    }
    for n in [0, 1, 8, 2_071, 2_072, 2_073, 4_000] {
        run.hold(&random.bytes(n));
    }
    println!(
        "one_to_one: {} images, {} of them one-way: {} one to one, {} with another id, {} with another name, {} refused; {} without entries, {} with an entry put twice, {} that fail behind the first entry",
        run.images, run.oneway, run.yes, run.kinds[0], run.kinds[1], run.refused, run.empty, run.equal, run.later
    );
    let met = [run.oneway, run.yes, run.kinds[0], run.kinds[1], run.refused, run.empty, run.equal, run.later];
    assert!(met.iter().all(|&count| count > 0), "a case was not met");
    println!("one_to_one: {} answers compared with the rule: {} different", run.tally.rule, run.tally.different);
    std::process::exit(i32::from(run.tally.different > 0));
}

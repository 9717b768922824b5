// A whole round through the archive, held to 02 (vii) told once more in plain Rust: names in and ids out, ids in and names out; on
// images of random puts and on damaged copies of them, with repeated and empty names, 0 to 513 names, ends that fall, stand still
// and pass the bytes, answer lists that are too short or longer; and names of 4,294,967,295 bytes.   round [ROUNDS]
mod archive;
mod damage;
mod mapped;
mod rules;
mod seed;
mod tally;

use std::collections::HashSet;

use archive::{IdAnswer, RoundAnswer, StrAnswer};
use mapped::Mapped;
use rules::HEAD;
use seed::Random;
use tally::Tally;

const ROUNDS: usize = 50_000;
const MOST: usize = 512;

// "The answers are those of single lookups."
fn single(image: &[u8], name: &[u8]) -> IdAnswer {
    let looked = rules::to_id(image, name);
    match looked.id {
        Some(id) => IdAnswer { found: 1, id, buckets: looked.buckets, offset: looked.offset },
        None => IdAnswer { found: 0, id: 0, buckets: looked.buckets, offset: 0 },
    }
}

// "Over 512 names, or ends that fall or pass the bytes, give 14; then an answer list shorter than the names gives 15." The names
// where the round is accepted: "the first name begins at byte 0".
fn names_of<'a>(bytes: &'a [u8], ends: &[u64], places: usize) -> Result<Vec<&'a [u8]>, u32> {
    if ends.len() > MOST {
        return Err(14);
    }
    let starts = std::iter::once(0).chain(ends.iter().copied());
    let names: Option<Vec<&[u8]>> =
        starts.zip(ends).map(|(s, &e)| bytes.get(usize::try_from(s).ok()?..usize::try_from(e).ok()?)).collect();
    let names = names.ok_or(14u32)?;
    if places < names.len() { Err(15) } else { Ok(names) }
}

// "The call's bucket count is the sum over the different names"; "answer places past the last name keep their content".
fn rule(image: &[u8], bytes: &[u8], ends: &[u64], answers: &mut [IdAnswer]) -> RoundAnswer {
    match names_of(bytes, ends, answers.len()) {
        Err(refusal) => RoundAnswer { refusal, buckets: 0 },
        Ok(names) => {
            let mut told = HashSet::new();
            let mut buckets = 0;
            for (place, name) in answers.iter_mut().zip(names) {
                *place = single(image, name);
                buckets += if told.insert(name) { u64::from(place.buckets) } else { 0 };
            }
            RoundAnswer { refusal: 0, buckets }
        }
    }
}

// The other half: the place of each id's name or nothing, in the order of the ids.
fn name_rule(image: &[u8], ids: &[u32], answers: &mut [StrAnswer]) -> u32 {
    if ids.len() > MOST {
        return 14;
    }
    if answers.len() < ids.len() {
        return 15;
    }
    for (place, &id) in answers.iter_mut().zip(ids) {
        *place = match rules::to_str(image, id) {
            Some((start, len)) => StrAnswer { found: 1, len: len as u32, start: start as u64 },
            None => StrAnswer { found: 0, len: 0, start: 0 },
        };
    }
    0
}

#[derive(Default)]
struct Run {
    tally: Tally,
    rounds: u64,
    name_rounds: u64,
    names: u64,
    found: u64,
    // Rounds in which a name stands twice, and those that are refused by each number.
    repeated: u64,
    refused14: u64,
    refused15: u64,
}

impl Run {
    fn ids(&mut self, random: &mut Random, image: &[u8], bytes: &[u8], ends: &[u64], places: usize) {
        let before: Vec<IdAnswer> = (0..places)
            .map(|_| IdAnswer { found: random.word(), id: random.word(), buckets: random.word(), offset: random.word() })
            .collect();
        let (mut given, mut wanted) = (before.clone(), before);
        let answer = archive::round(image, bytes, ends, &mut given);
        let ruled = rule(image, bytes, ends, &mut wanted);
        self.rounds += 1;
        self.refused14 += u64::from(ruled.refusal == 14);
        self.refused15 += u64::from(ruled.refusal == 15);
        if ruled.refusal == 0 {
            self.names += ends.len() as u64;
            self.found += wanted.iter().take(ends.len()).filter(|a| a.found == 1).count() as u64;
            let all: u64 = wanted.iter().take(ends.len()).map(|a| u64::from(a.buckets)).sum();
            self.repeated += u64::from(ruled.buckets < all);
            // "so never above that of single calls"
            self.tally.rule(answer.buckets <= all, true, || format!("{} buckets, {all} by single calls", answer.buckets));
        }
        self.tally.rule(answer, ruled, || format!("{} names, {places} places", ends.len()));
        self.tally.rule(given == wanted, true, || format!("the places of {} names, {places} places", ends.len()));
    }

    fn names(&mut self, random: &mut Random, image: &[u8], ids: &[u32], places: usize) {
        let before: Vec<StrAnswer> =
            (0..places).map(|_| StrAnswer { found: random.word(), len: random.word(), start: random.next() }).collect();
        let (mut given, mut wanted) = (before.clone(), before);
        let answer = archive::name_round(image, ids, &mut given);
        let ruled = name_rule(image, ids, &mut wanted);
        self.name_rounds += 1;
        self.tally.rule(answer, ruled, || format!("{} ids, {places} places", ids.len()));
        self.tally.rule(given == wanted, true, || format!("the places of {} ids, {places} places", ids.len()));
    }
}

type Put = (Vec<u8>, u32);

fn name(random: &mut Random) -> Vec<u8> {
    let n = random.pick(&[0, 1, 2, 3, 4, 7, 8, 9, 9, 9, 11, 12, 13, 24, 40]);
    (0..n).map(|_| b'a' + random.below(if n < 4 { 3 } else { 26 }) as u8).collect()
}

fn image(puts: &[Put], mode: u32) -> Vec<u8> {
    let largest = puts.iter().map(|put| put.1 as usize + 1).max().unwrap_or(0);
    let mut buf = vec![0; HEAD + puts.iter().map(|put| put.0.len() + 25).sum::<usize>() + 4 * largest];
    let mut counts = [0; 256];
    let mut record = archive::begin(mode, 1, &mut counts, &buf).record;
    for (name, id) in puts {
        record = archive::put(record, &mut counts, &mut buf, name, *id).record;
    }
    let closed = archive::close(record, &counts, &mut buf);
    assert_eq!(closed.refusal, 0, "there is room for all puts");
    buf.truncate(closed.size as usize);
    buf
}

// How many names: mostly few, often the limits.
fn number(random: &mut Random) -> usize {
    match random.below(10) {
        0 => random.pick(&[0, 1, 2, 511, 512, 513, 600]),
        1 => random.below(514),
        _ => random.below(40),
    }
}

// Names of the image, others, and those that stood before in the round; then joined.
fn joined(random: &mut Random, puts: &[Put], n: usize) -> (Vec<u8>, Vec<u64>) {
    let mut list: Vec<Vec<u8>> = Vec::new();
    let again = random.pick(&[0, 0, 1, 2, 4]);
    for _ in 0..n {
        let next = if again > 0 && !list.is_empty() && random.below(4) < again {
            list[random.below(list.len())].clone()
        } else if !puts.is_empty() && !random.once_in(4) {
            puts[random.below(puts.len())].0.clone()
        } else {
            name(random)
        };
        list.push(next);
    }
    let mut bytes = Vec::new();
    let mut ends = Vec::new();
    for name in &list {
        bytes.extend(name);
        ends.push(bytes.len() as u64);
    }
    if random.once_in(3) {
        let more = random.below(20);
        bytes.extend(random.bytes(more));
    }
    (bytes, ends)
}

// Ends that fall, pass the bytes, or lie far beyond.
fn spoiled(random: &mut Random, bytes: &[u8], ends: &mut [u64]) {
    if ends.is_empty() {
        return;
    }
    let i = random.below(ends.len());
    let size = bytes.len() as u64;
    ends[i] = match random.below(6) {
        0 => ends[i].wrapping_sub(1),
        1 => size + 1,
        2 => random.next(),
        3 => random.pick(&[u64::MAX, 1 << 32, 1 << 63, 0]),
        4 => ends[i] + 1,
        _ => random.below(bytes.len() + 2) as u64,
    };
}

// Two names of 4,294,967,295 bytes, one of one byte less, and short ones, joined in memory that is mapped lazily.
fn long(run: &mut Run, random: &mut Random, image: &[u8]) {
    let most = 4_294_967_295u64;
    let bytes = Mapped::zeros(2 * most as usize + 64);
    let shown: Vec<u64> = vec![0, most, 2 * most, 2 * most + 9, 2 * most + 18];
    run.ids(random, image, &bytes, &shown, shown.len());
    run.ids(random, image, &bytes, &[most], 1);
    run.ids(random, image, &bytes, &[most - 1, most - 1, most], 4);
    run.ids(random, image, &bytes, &[2 * most + 65], 4);
}

fn main() {
    let rounds = std::env::args().nth(1).map_or(ROUNDS, |n| n.parse().expect("a number of rounds"));
    let mut random = Random::new();
    let mut run = Run::default();
    println!("round: seed {}", random.seed);
    let mut puts: Vec<Put> = Vec::new();
    let mut whole = image(&puts, 0);
    for turn in 0..rounds {
        if turn % 10 == 0 {
            let most = random.pick(&[0, 1, 5, 40, 200, 700]);
            let n = random.below(most + 1);
            puts = (0..n).map(|_| (name(&mut random), random.below(2 * n + 1) as u32)).collect();
            let mode = u32::from(random.once_in(6));
            whole = image(&puts, mode);
        }
        let made = if random.once_in(3) { whole.clone() } else { damage::copy(&mut random, &whole, turn % damage::KINDS) };
        let n = number(&mut random);
        let (bytes, mut ends) = joined(&mut random, &puts, n);
        if random.once_in(8) {
            spoiled(&mut random, &bytes, &mut ends);
        }
        let places = random.pick(&[n, n, n, n + 1, n + 7, n.saturating_sub(1), 0, 600]);
        run.ids(&mut random, &made, &bytes, &ends, places);
        let ids: Vec<u32> = (0..n)
            .map(|_| if random.once_in(30) { random.word() } else { random.below(2 * puts.len() + 2) as u32 })
            .collect();
        run.names(&mut random, &made, &ids, places);
    }
    long(&mut run, &mut random, &whole);
    println!(
        "round: {} rounds of names, {} of ids; {} names looked up, {} found; {} rounds with a repeated name; {} refused with 14, {} \
         with 15",
        run.rounds, run.name_rounds, run.names, run.found, run.repeated, run.refused14, run.refused15
    );
    run.tally.end("round");
}

// The load of a seed through the archive, held to 02 (xiii) told once more in plain Rust, its image included: in buffers with room for
// all entries, exactly and by one byte too little, for some, for none, and too short to begin. Every byte of the buffer
// afterwards is compared.   load [SEEDS]
mod archive;
mod plain;
mod seed;
mod tally;

use archive::LoadAnswer;
use plain::{Put, HEAD};
use seed::Random;
use tally::Tally;

const SEEDS: usize = 2_500;
const ENTRIES: u32 = 4_096;
const ALL: usize = 157_720;

// "Each step takes s to 1664525 x s + 1013904223 modulo 2^32. Entry i, from 0, has id i and the name P followed by eight uppercase
// hexadecimal digits of the state after step i + 1."
fn entries(seed: u32) -> impl Iterator<Item = Put> {
    let mut s = u64::from(seed);
    (0..ENTRIES).map(move |id| {
        s = (1_664_525 * s + 1_013_904_223) % (1 << 32);
        (format!("P{s:08X}").into_bytes(), id)
    })
}

// "The load is put two-way in repeats mode, until 4,096 entries are accepted or one is refused, then closed." A put is refused
// where the finished image would not fit.
fn accepted(seed: u32, room: usize) -> Vec<Put> {
    let mut puts: Vec<Put> = Vec::new();
    let mut size = HEAD;
    for put in entries(seed) {
        size += 9 + put.0.len() + 16 + 4;
        if size > room {
            break;
        }
        puts.push(put);
    }
    puts
}

#[derive(Default)]
struct Run {
    tally: Tally,
    loads: u64,
    full: u64,
    refused: u64,
    bytes: u64,
}

impl Run {
    // One seed and buffer: what is given, and every byte afterwards. "A buffer too short to begin gives 1."
    fn load(&mut self, random: &mut Random, seed: u32, room: usize) {
        let before = random.bytes(room);
        let mut buf = before.clone();
        let answer = archive::load(seed, &mut buf);
        let puts = accepted(seed, room);
        let (wanted, front) = if room < HEAD {
            (LoadAnswer { refusal: 1, accepted: 0 }, Vec::new())
        } else {
            (LoadAnswer { refusal: 0, accepted: puts.len() as u32 }, plain::image(false, &puts))
        };
        let after = [&front[..], &before[front.len()..]].concat();
        self.tally.rule(answer, wanted, || format!("seed {seed} in {room} bytes"));
        self.tally.bytes(&buf, &after, || format!("the buffer of seed {seed} in {room} bytes"));
        self.loads += 1;
        self.full += u64::from(answer.accepted == ENTRIES);
        self.refused += u64::from(answer.refusal > 0);
        self.bytes += room as u64;
    }
}

// The lengths that 02 and its examples name, one entry more or less, and any length.
fn rooms(random: &mut Random) -> [usize; 9] {
    let some = HEAD + 38 * random.below(ENTRIES as usize);
    let more = random.below(5_000);
    let any = random.below(ALL + 5_000);
    [ALL, ALL - 1, ALL + more, some, some + 37, any, 2_071, 2_072, random.below(2_200)]
}

// A seed's number of entries and size by the papers' own examples.
fn examples(run: &mut Run) {
    let name = entries(0).next().expect("an entry").0;
    run.tally.rule(&name[..], &b"P3C6EF35F"[..], || "the first name of seed 0".into());
    for (room, refusal, accepted, size) in
        [(157_720, 0, 4_096, 157_720_u32), (157_719, 0, 4_095, 157_682), (2_072, 0, 0, 2_072), (2_071, 1, 0, 0)]
    {
        let mut buf = vec![0; room];
        let answer = archive::load(0, &mut buf);
        run.tally.rule(answer, LoadAnswer { refusal, accepted }, || format!("seed 0 in {room} bytes"));
        run.tally.bytes(&buf[4..8], &size.to_le_bytes(), || format!("the size word in {room} bytes"));
    }
}

fn main() {
    let seeds = std::env::args().nth(1).map_or(SEEDS, |text| text.parse().expect("a number of seeds"));
    let mut random = Random::new();
    println!("load: seed {}", random.seed);
    let mut run = Run::default();
    examples(&mut run);
    for i in 0..seeds {
        let limit = [0, 1, 0x7fff_ffff, 0x8000_0000, u32::MAX];
        let seed = limit.get(i).copied().unwrap_or_else(|| random.word());
        let rooms = rooms(&mut random);
        // All lengths of the first seeds; then two of them in turn.
        let taken = if i < 40 { 0..rooms.len() } else { i % 8..i % 8 + 2 };
        for &room in &rooms[taken] {
            run.load(&mut random, seed, room);
        }
    }
    println!(
        "load: {} seeds in {} buffers of {} bytes together, {} with all 4,096 entries and {} refused",
        seeds, run.loads, run.bytes, run.full, run.refused
    );
    println!(
        "load: {} answers and their bytes compared with 02's rule: {} different",
        run.tally.rule, run.tally.different
    );
    std::process::exit(i32::from(run.tally.different > 0));
}

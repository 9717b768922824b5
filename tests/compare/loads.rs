// The load of a seed beside the image that the unchanged Rust makes of the same puts, in every byte; and what both read from it.
// loads [SEEDS]
mod archive;
mod original;
mod seed;
mod tally;

use original::Put;
use seed::Random;
use tally::Tally;

const SEEDS: usize = 2_000;

// The puts of 02 (xiii).
fn puts(seed: u32, n: usize) -> Vec<Put> {
    let mut s = seed;
    (0..n as u32)
        .map(|id| {
            s = s.wrapping_mul(1_664_525).wrapping_add(1_013_904_223);
            (format!("P{s:08X}").into_bytes(), id)
        })
        .collect()
}

// One load in a buffer with room for n entries, and up to 37 bytes more.
fn load(tally: &mut Tally, random: &mut Random, seed: u32, n: usize) {
    let more = random.below(38);
    let mut buf = random.bytes(2_072 + 38 * n + more);
    let answer = archive::load(seed, &mut buf);
    tally.rust((answer.refusal, answer.accepted), (0, n as u32), || format!("seed {seed} with room for {n}"));
    let image = &buf[..2_072 + 38 * n];
    let puts = puts(seed, n);
    tally.bytes(image, &original::image(false, &puts), || format!("the load of seed {seed} with {n} entries"));
    let Ok(db) = original::open(image) else {
        return tally.rust(false, true, || format!("the Rust opens the load of seed {seed}"));
    };
    for _ in 0..20.min(n) {
        let (name, id) = &puts[random.below(n)];
        let text = std::str::from_utf8(name).expect("digits");
        tally.rust(archive::found_id(image, name), db.to_id(text), || format!("the id of {text} of seed {seed}"));
        tally
            .rust(archive::named(image, *id), db.to_str(*id).map(|name| &**name), || format!("id {id} of seed {seed}"));
    }
}

fn main() {
    let seeds = std::env::args().nth(1).map_or(SEEDS, |text| text.parse().expect("a number of seeds"));
    let mut random = Random::new();
    println!("loads: seed {}", random.seed);
    let mut tally = Tally::default();
    for i in 0..seeds {
        let seed = if i < 2 { u32::MAX * i as u32 } else { random.word() };
        let n = if random.once_in(2) { 4_096 } else { random.below(4_096) };
        load(&mut tally, &mut random, seed, n);
    }
    println!(
        "loads: {seeds} images and {} answers compared with the Rust's: {} different",
        tally.rust, tally.different
    );
    std::process::exit(i32::from(tally.different > 0));
}

// Large images, compared live: the same puts through the archive and the Rust; every byte of the image, every name and seven
// times as many absent ones, every id, and the walk.   large [ENTRIES..]
mod archive;
mod original;
mod seed;
mod tally;

use original::Put;
use seed::Random;
use tally::Tally;

const SIZES: [usize; 3] = [4_096, 65_536, 1_000_000];

// Names of 9 bytes, and ids in a mixed order: some ids repeat and some are left out.
fn puts(random: &mut Random, n: usize) -> Vec<Put> {
    (0..n).map(|i| (format!("{:09x}", i * 7 + random.below(7)).into_bytes(), random.below(n) as u32)).collect()
}

fn build(tally: &mut Tally, puts: &[Put], buf: &mut [u8]) -> usize {
    let mut counts = [0; 256];
    let mut record = archive::begin(0, 1, &mut counts, buf).record;
    for (name, id) in puts {
        let answer = archive::put(record, &mut counts, buf, name, *id);
        tally.rule(answer.refusal, 0, || "a put".into());
        record = answer.record;
    }
    let closed = archive::close(record, &counts, buf);
    tally.rule(closed.refusal, 0, || "the close".into());
    closed.size as usize
}

fn compare(tally: &mut Tally, random: &mut Random, n: usize) {
    let puts = puts(random, n);
    let theirs = original::image(false, &puts);
    let mut buf = random.bytes(theirs.len() + 100);
    let size = build(tally, &puts, &mut buf);
    tally.rust(buf[..size] == theirs[..], true, || format!("image of {n} puts"));
    let db = original::open(&theirs).expect("an image of the Rust");
    tally.rust(archive::open(&theirs).num, db.num(), || "num".into());
    for i in 0..8 * n {
        let name = format!("{i:09x}");
        tally.rust(archive::found_id(&theirs, name.as_bytes()), db.to_id(&name), || format!("name {name}"));
    }
    for id in 0..n as u32 + 2 {
        tally.rust(archive::named(&theirs, id), db.to_str(id).map(|name| &**name), || format!("id {id}"));
    }
    for (id, name) in db.iter().map(|item| item.expect("an item")) {
        tally.rust(archive::named(&theirs, id), Some(&**name), || format!("step {id} of the walk"));
    }
}

fn main() {
    let given: Vec<usize> = std::env::args().skip(1).map(|text| text.parse().expect("a number of entries")).collect();
    let mut random = Random::new();
    println!("large: seed {}", random.seed);
    let mut tally = Tally::default();
    for &n in if given.is_empty() { &SIZES[..] } else { &given } {
        compare(&mut tally, &mut random, n);
        println!("large: {n} entries, {} answers so far, {} different", tally.rust, tally.different);
    }
    tally.end("large");
}

// Close by tables, compared live: lists of 1,023 entries and more, whose image must be the Rust's for the same puts, byte for
// byte, also where one table has more or fewer entries than close copies at once, after a second close, and after more puts
// over the tables of the first.   tables [LISTS]
mod archive;
mod original;
mod rules;
mod seed;
mod tally;

use archive::{Counts, Record};
use original::Put;
use seed::Random;
use tally::Tally;

const LISTS: usize = 300;
// From how many entries on close goes by tables, and how many entries of one table it copies.
const MANY: usize = 1_024;
const COPIED: usize = 4_608;
const MORE: usize = 40;

// Names of one table: all others are passed over.
fn of_table(table: u32, n: usize) -> Vec<Vec<u8>> {
    (0u32..).map(|i| format!("{i:x}").into_bytes()).filter(|name| rules::hash(name) % 256 == table).take(n).collect()
}

// n puts of names among these, or of any names of 0 to 20 bytes where there are none; ids repeat, and some are left out.
fn puts(random: &mut Random, among: &[Vec<u8>], n: usize) -> Vec<Put> {
    (0..n)
        .map(|i| {
            let name = match among.get(i) {
                Some(name) => name.clone(),
                None => (0..random.below(21)).map(|_| 1 + random.below(255) as u8).collect(),
            };
            (name, random.below(n) as u32)
        })
        .collect()
}

struct Writing {
    record: Record,
    counts: Counts,
    buf: Vec<u8>,
}

impl Writing {
    fn puts(&mut self, tally: &mut Tally, puts: &[Put]) {
        for (name, id) in puts {
            let answer = archive::put(self.record, &mut self.counts, &mut self.buf, name, *id);
            tally.rule(answer.refusal, 0, || "a put".into());
            self.record = answer.record;
        }
    }

    // A close: the Rust's image, and behind it the bytes that were there.
    fn close(&mut self, tally: &mut Tally, oneway: bool, puts: &[Put], what: &str) {
        let theirs = original::image(oneway, puts);
        let behind = self.buf[theirs.len()..].to_vec();
        let closed = archive::close(self.record, &self.counts, &mut self.buf);
        tally.rust((closed.refusal, closed.size as usize), (0, theirs.len()), || format!("{what}: the answer"));
        tally.bytes(&self.buf[..theirs.len()], &theirs, || format!("{what}: the image"));
        tally.rule(self.buf[theirs.len()..] == behind, true, || format!("{what}: the bytes behind it"));
    }
}

// A close of all puts but the last, once more, then with these too.
fn compare(tally: &mut Tally, random: &mut Random, oneway: bool, puts: &[Put], what: &str) {
    let size = original::image(oneway, puts).len();
    let spare = random.below(50);
    let buf = random.bytes(size + spare);
    let mut counts = [0; 256];
    let record = archive::begin(oneway as u32, 1, &mut counts, &buf).record;
    let mut writing = Writing { record, counts, buf };
    let (first, last) = puts.split_at(puts.len() - MORE);
    writing.puts(tally, first);
    writing.close(tally, oneway, first, what);
    writing.close(tally, oneway, first, what);
    writing.puts(tally, last);
    writing.close(tally, oneway, puts, what);
}

fn main() {
    let lists = std::env::args().nth(1).map_or(LISTS, |text| text.parse().expect("a number of lists"));
    let mut random = Random::new();
    println!("tables: seed {}", random.seed);
    let mut tally = Tally::default();
    let table = random.below(256) as u32;
    let names = of_table(table, COPIED + MORE + 1);
    for oneway in [false, true] {
        for n in [MANY - 1, MANY, MANY + 1, COPIED - 1, COPIED, COPIED + 1] {
            for all in [n, n + MORE] {
                let list = puts(&mut random, &[], all);
                compare(&mut tally, &mut random, oneway, &list, &format!("{n} entries of any tables"));
                let list = puts(&mut random, &names[..n], all);
                compare(&mut tally, &mut random, oneway, &list, &format!("{n} entries of table {table}"));
            }
        }
    }
    for i in 0..lists {
        let n = MANY + MORE + random.below(5_000);
        let alike = random.below(names.len());
        let list = puts(&mut random, &names[..alike], n);
        compare(&mut tally, &mut random, i % 4 == 0, &list, &format!("{n} entries, {alike} of table {table}"));
    }
    println!("tables: {} lists", 48 + lists);
    tally.end("tables");
}

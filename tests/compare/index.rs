// Puts by an index through the archive, beside puts without one: the same names in two buffers, with closes, growth and indexes made
// again between them, two-way and one-way, repeats off and on, by indexes that are large, nearly full or full. After each call the
// record, the counts, every byte of the buffer and every word of the slots are compared; the slots with an insertion told once more
// in plain Rust. Then slots of any words, and records that do not fit: the refusal is that of the checks in their order, told once more
// in plain Rust; nothing outside what is lent changes, each call ends, a refusal changes nothing, and an accepted put leaves exactly its
// entry and its slot.   index [PUTS]
mod archive;
mod by_slots;
mod plain;
mod seed;
mod tally;

use archive::{Counts, Record};
use plain::{Put, HEAD};
use seed::Random;
use std::collections::HashMap;
use tally::Tally;

const PUTS: u64 = 1_200_000;
const GUARD: usize = 8;
const MARK: u8 = 0xa7;
const MARKS: u32 = 0xa7a7_a7a7;

/// Bytes or words that are lent, with others around them.
#[derive(Clone)]
struct Lent<T> {
    all: Vec<T>,
    mark: T,
}

impl<T: Copy + PartialEq> Lent<T> {
    fn new(inner: &[T], mark: T) -> Self {
        Lent { all: [&[mark; GUARD], inner, &[mark; GUARD]].concat(), mark }
    }

    fn inner(&mut self) -> &mut [T] {
        let n = self.all.len();
        &mut self.all[GUARD..n - GUARD]
    }

    fn seen(&self) -> &[T] {
        &self.all[GUARD..self.all.len() - GUARD]
    }

    fn grow(&mut self, more: &[T]) {
        *self = Lent::new(&[self.seen(), more].concat(), self.mark);
    }

    fn guarded(&self) -> bool {
        let n = self.all.len();
        self.all[..GUARD].iter().chain(&self.all[n - GUARD..]).all(|x| *x == self.mark)
    }
}

/// A record and its counts as C's writer has them, with words around and between.
#[repr(C)]
#[derive(Clone, Copy, PartialEq, Debug)]
struct Writer {
    before: [u64; 4],
    record: Record,
    between: [u64; 4],
    counts: Counts,
    after: [u64; 4],
}

impl Writer {
    fn new(record: Record, counts: Counts) -> Self {
        Writer { before: [7; 4], record, between: [7; 4], counts, after: [7; 4] }
    }
}

/// What a call by an index is lent.
#[derive(Clone)]
struct Indexed {
    writer: Writer,
    buf: Lent<u8>,
    slots: Lent<u32>,
}

impl Indexed {
    fn put(&mut self, name: &[u8], id: u32) -> u32 {
        let Writer { record, counts, .. } = &mut self.writer;
        archive::put_indexed(record, counts, self.buf.inner(), self.slots.inner(), name, id)
    }

    fn same(&self, other: &Indexed) -> bool {
        self.writer == other.writer && self.buf.all == other.buf.all && self.slots.all == other.slots.all
    }

    fn guarded(&self) -> bool {
        let w = &self.writer;
        self.buf.guarded() && self.slots.guarded() && [w.before, w.between, w.after] == [[7; 4]; 3]
    }
}

/// docs/FORMAT.md: two words a slot; an entry goes to the first empty slot from hash / 256 modulo their number on, round about.
fn insert(slots: &mut [u32], hash: u32, at: u32) {
    let m = slots.len() / 2;
    let k = (0..m).map(|i| (hash as usize / 256 + i) % m).find(|k| slots[2 * k + 1] == 0).expect("an empty slot");
    (slots[2 * k], slots[2 * k + 1]) = (hash, at);
}

/// The slots of these entries in empty ones; an odd last word keeps its content.
fn inserted(words: usize, last: u32, entries: &[(u32, u32)]) -> Vec<u32> {
    let mut slots = vec![0; words];
    entries.iter().for_each(|&(hash, at)| insert(&mut slots, hash, at));
    if words % 2 == 1 {
        slots[words - 1] = last;
    }
    slots
}

#[derive(Default)]
struct Run {
    tally: Tally,
    lists: u64,
    puts: u64,
    closes: u64,
    growths: u64,
    indexes: u64,
    wild: u64,
    refused: [u64; 25],
    wild_refused: [u64; 25],
}

/// Two writers of one list: with an index and without.
struct Pair {
    by: Indexed,
    record: Record,
    counts: Counts,
    buf: Vec<u8>,
    accepted: Vec<Put>,
    entries: Vec<(u32, u32)>,
}

impl Run {
    fn put(&mut self, p: &mut Pair, name: &[u8], id: u32) -> u32 {
        let (m, before) = (p.by.slots.seen().len() / 2, p.by.clone());
        let refusal = p.by.put(name, id);
        // With repeats on no name is sought: no slot is needed, none is read or written.
        let seeks = p.record.repeats == 0;
        let full = seeks && p.entries.len() >= m;
        let (mut counts, mut buf) = (p.counts, if full { p.buf.clone() } else { vec![] });
        // By a full index the put without one is tried on a copy: 24 comes where it is accepted.
        let answer = match full {
            true => archive::put(p.record, &mut counts, &mut buf, name, id),
            false => archive::put(p.record, &mut p.counts, &mut p.buf, name, id),
        };
        let due = if full && answer.refusal == 0 { 24 } else { answer.refusal };
        self.tally.rule(refusal, due, || format!("a put of {name:?} under {id} by {m} slots, {} taken", p.entries.len()));
        if due == 0 {
            let (hash, at) = (plain::hash(name), p.record.end as u32);
            let mut slots = before.slots.clone();
            if seeks {
                insert(slots.inner(), hash, at);
            }
            self.tally.rule(p.by.slots.all == slots.all, true, || format!("the slots after a put of {name:?}"));
            p.record = answer.record;
            p.entries.push((hash, at));
            p.accepted.push((name.to_vec(), id));
            self.tally.rule(p.by.guarded(), true, || "what stands around the lent memory".into());
        } else {
            self.tally.rule(p.by.same(&before), true, || format!("what a put refused with {due} leaves"));
        }
        self.beside(p);
        self.puts += 1;
        self.refused[refusal as usize] += 1;
        refusal
    }

    fn beside(&mut self, p: &Pair) {
        self.tally.rule(p.by.writer.record, p.record, || "the record by the index and without".into());
        self.tally.rule(p.by.writer.counts == p.counts, true, || "the counts by the index and without".into());
        self.tally.rule(p.by.buf.seen() == p.buf, true, || "the buffers by the index and without".into());
    }

    fn close(&mut self, p: &mut Pair) -> usize {
        let due = archive::close(p.record, &p.counts, &mut p.buf);
        let closed = archive::close(p.by.writer.record, &p.by.writer.counts, p.by.buf.inner());
        self.tally.rule((closed.refusal, closed.size), (0, due.size), || "a close by the index".into());
        self.beside(p);
        self.closes += 1;
        closed.size as usize
    }

    fn grow(&mut self, p: &mut Pair, random: &mut Random) {
        let n = random.below(200);
        let more = random.bytes(n);
        p.by.buf.grow(&more);
        p.buf.extend(&more);
        let length = p.buf.len() as u64;
        p.record = archive::grown(p.record, length).record;
        p.by.writer.record = archive::grown(p.by.writer.record, length).record;
        self.beside(p);
        self.growths += 1;
    }

    /// An index of the entries in other words, of this number: that of the rule, or 24 and the words as they were.
    fn index(&mut self, p: &mut Pair, random: &mut Random, words: usize, keep: bool) {
        let noise: Vec<u32> = (0..words).map(|_| random.word()).collect();
        let mut slots = Lent::new(&noise, MARKS);
        let refusal = archive::index(p.by.writer.record, &p.by.writer.counts, p.by.buf.seen(), slots.inner());
        let due = if words / 2 < p.entries.len() { 24 } else { 0 };
        self.tally.rule(refusal, due, || format!("an index of {} entries in {words} words", p.entries.len()));
        let left = match due {
            0 => inserted(words, noise.last().copied().unwrap_or(0), &p.entries),
            _ => noise,
        };
        self.tally.rule(slots.seen() == left && slots.guarded(), true, || format!("the {words} words of an index"));
        self.beside(p);
        self.indexes += 1;
        if due == 0 && p.record.repeats == 0 && words == p.by.slots.seen().len() && words % 2 == 0 {
            self.tally.rule(slots.all == p.by.slots.all, true, || "an index made again and the one kept".into());
        }
        if keep && due == 0 {
            p.by.slots = slots;
        }
    }

    /// One list of puts from a fresh record. The image at the end is that of the accepted puts in plain Rust.
    fn list(&mut self, random: &mut Random, names: &Names, most: usize, repeats: u32) {
        let n = random.below(most + 1);
        let mode = random.below(2) as u32;
        let room = HEAD + random.pick(&[0, 30, 40 * n, 60 * n, 60 * n, 300 * n]);
        let words = random.pick(&[0, 1, n, 2 * n, 2 * n + 1, 2 * n + 3, 4 * n, 4 * n, 8 * n + 2]);
        let buf = random.bytes(room);
        let mut counts = [9; 256];
        let record = archive::begin(mode, repeats, &mut counts, &buf).record;
        let slots = Lent::new(&vec![random.word(); words], MARKS);
        let by = Indexed { writer: Writer::new(record, counts), buf: Lent::new(&buf, MARK), slots };
        let mut p = Pair { by, record, counts, buf, accepted: vec![], entries: vec![] };
        let cleared = archive::index(record, &counts, p.by.buf.seen(), p.by.slots.inner());
        self.tally.rule(cleared, 0, || "the index of a fresh record".into());
        let empty = p.by.slots.seen()[..words / 2 * 2].iter().all(|w| *w == 0);
        self.tally.rule(empty && p.by.guarded(), true, || "the slots of a fresh record".into());
        for i in 0..n {
            let again = !p.accepted.is_empty() && random.once_in(4);
            let name = if again { p.accepted[random.below(p.accepted.len())].0.clone() } else { names.any(random) };
            let id = if random.once_in(3) { random.below(300) } else { i } as u32;
            let refusal = self.put(&mut p, &name, id);
            if (refusal == 3 && random.once_in(2)) || random.once_in(most) {
                self.grow(&mut p, random);
            }
            if random.once_in(most) {
                self.close(&mut p);
            }
            if random.once_in(most) || (refusal == 24 && random.once_in(3)) {
                let words = random.pick(&[words, words + 1, p.entries.len(), 2 * p.entries.len(), 4 * p.entries.len() + 4]);
                let keep = random.once_in(2);
                self.index(&mut p, random, words, keep);
            }
        }
        let words = p.by.slots.seen().len();
        self.index(&mut p, random, words, false);
        let size = self.close(&mut p);
        let image = plain::image(mode == 1, &p.accepted);
        self.tally.rule(p.by.buf.seen()[..size] == image, true, || format!("the image of {} puts", p.accepted.len()));
        self.lists += 1;
    }

    /// A put by any words, and with any record: what is accepted leaves its entry and its slot, what is refused leaves all.
    fn wild(&mut self, random: &mut Random, names: &Names) {
        let (mut s, put) = wild_state(random, names);
        let before = s.clone();
        let again = !put.is_empty() && random.once_in(3);
        let name = if again { put[random.below(put.len())].clone() } else { names.any(random) };
        let id = random.pick(&[0, 1, 20, 500, u32::MAX]);
        let Writer { record, counts, .. } = &s.writer;
        let due = by_slots::refusal(record, counts, s.buf.seen(), s.slots.seen(), (&name, plain::hash(&name)), id);
        let refusal = s.put(&name, id);
        self.tally.rule(s.guarded(), true, || "what stands around wild slots".into());
        self.tally.rule(refusal, due, || format!("a put of {name:?} under {id} by wild slots"));
        self.wild_refused[refusal as usize] += 1;
        if refusal == 0 {
            let mut due = before;
            appended(&mut due, &name, id);
            let (hash, at) = (plain::hash(&name), due.writer.record.end as usize - name.len() - 9);
            let stored = (0..s.slots.seen().len() / 2).find(|k| s.slots.seen()[2 * k..2 * k + 2] != due.slots.seen()[2 * k..2 * k + 2]);
            if let (Some(k), 0) = (stored, due.writer.record.repeats) {
                self.tally.rule(due.slots.seen()[2 * k + 1], 0, || "the slot of a wild put was empty".into());
                (due.slots.inner()[2 * k], due.slots.inner()[2 * k + 1]) = (hash, at as u32);
            }
            let seeks = due.writer.record.repeats == 0;
            self.tally.rule(stored.is_some() == seeks && s.same(&due), true, || "an accepted put by wild slots leaves its entry and its slot".into());
        } else {
            self.tally.rule(s.same(&before), true, || format!("what a put by wild slots refused with {refusal} leaves"));
        }
        let before = s.clone();
        let Writer { record, counts, .. } = s.writer;
        let closed = archive::close(record, &counts, &mut s.buf.seen().to_vec()).refusal;
        let many = s.slots.seen().len() / 2 < record.entries as usize;
        let due = if closed == 0 && many { 24 } else { closed };
        let refusal = archive::index(record, &counts, s.buf.seen(), s.slots.inner());
        self.tally.rule(refusal, due, || "an index over wild slots".into());
        self.tally.rule(s.guarded() && s.writer == before.writer && s.buf.all == before.buf.all, true, || "what an index leaves".into());
        if refusal > 0 {
            self.tally.rule(s.same(&before), true, || format!("what an index refused with {refusal} leaves"));
        }
        self.wild += 2;
    }
}

/// The state after an accepted put, slots apart: the entry at the end, and the numbers raised.
fn appended(s: &mut Indexed, name: &[u8], id: u32) {
    let at = s.writer.record.end as usize;
    let entry = [&id.to_le_bytes()[..], &(name.len() as u32 + 1).to_le_bytes(), name, &[0]].concat();
    s.buf.inner()[at..at + entry.len()].copy_from_slice(&entry);
    s.writer.counts[plain::hash(name) as usize % 256] += 1;
    let r = &mut s.writer.record;
    r.entries += 1;
    r.end += entry.len() as u64;
    if r.mode == 0 {
        r.back = r.back.max(id + 1);
    }
}

/// Some puts, and their names; then slots of any words, some of them offsets and hashes of entries, or a right index of which some words
/// are changed; and in half of all cases a record that is spoilt.
fn wild_state(random: &mut Random, names: &Names) -> (Indexed, Vec<Vec<u8>>) {
    let room = HEAD + random.below(600);
    let mut buf = random.bytes(room);
    let mut counts = [0; 256];
    let mut record = archive::begin(random.below(2) as u32, random.below(2) as u32, &mut counts, &buf).record;
    let mut some = vec![0, 1, HEAD as u32, u32::MAX, room as u32 - 1];
    let mut put = vec![];
    for id in 0..random.below(8) as u32 {
        let name = names.any(random);
        some.extend([record.end as u32, record.end as u32 + 1, plain::hash(&name)]);
        record = archive::put(record, &mut counts, &mut buf, &name, id).record;
        put.push(name);
    }
    let words = random.below(40);
    let thin = random.once_in(2);
    let any = |random: &mut Random| if random.once_in(2) { random.pick(&some) } else if thin { 0 } else { random.word() };
    let mut slots: Vec<u32> = (0..words).map(|_| any(random)).collect();
    if random.once_in(2) && archive::index(record, &counts, &buf, &mut slots) == 0 && words > 0 {
        (0..random.below(4)).for_each(|_| slots[random.below(words)] = any(random));
    }
    let odd = |random: &mut Random, old: u64| random.pick(&[0, 1, 2, old + 1, old.wrapping_sub(1), u64::from(u32::MAX), u64::MAX, HEAD as u64]);
    match random.below(16) {
        0 => record.mode = odd(random, 2) as u32,
        1 => record.repeats = odd(random, 2) as u32,
        2 => record.entries = odd(random, u64::from(record.entries)) as u32,
        3 => record.back = odd(random, u64::from(record.back)) as u32,
        4 => record.length = odd(random, record.length),
        5 | 6 => record.end = odd(random, record.end),
        7 => counts = [random.pick(&[0, 1, u32::MAX]); 256],
        _ => (),
    }
    (Indexed { writer: Writer::new(record, counts), buf: Lent::new(&buf, MARK), slots: Lent::new(&slots, MARKS) }, put)
}

/// Short names, and pairs of them with one hash.
struct Names {
    twins: Vec<Vec<u8>>,
}

impl Names {
    fn new(random: &mut Random) -> Names {
        let first = random.below(1 << 30);
        let mut met: HashMap<u32, Vec<u8>> = HashMap::new();
        let mut twins = vec![];
        for name in (first..first + 300_000).map(|i| format!("q{i:x}").into_bytes()) {
            if let Some(other) = met.insert(plain::hash(&name), name.clone()) {
                twins.extend([other, name]);
            }
        }
        Names { twins }
    }

    fn any(&self, random: &mut Random) -> Vec<u8> {
        match random.below(12) {
            0 | 1 if !self.twins.is_empty() => self.twins[random.below(self.twins.len().min(8))].clone(),
            2 => vec![b'A' + random.below(3) as u8; random.below(3)],
            3 => {
                let n = random.below(30);
                random.bytes(n)
            }
            _ => format!("prism {}", random.below(2_000)).into_bytes(),
        }
    }
}

fn main() {
    let puts = std::env::args().nth(1).map_or(PUTS, |text| text.parse().expect("a number of puts"));
    let mut random = Random::new();
    println!("index: seed {}", random.seed);
    let names = Names::new(&mut random);
    let mut run = Run::default();
    while run.puts < puts {
        let most = if random.once_in(800) { 1_000 } else { random.pick(&[4, 20, 60]) };
        let repeats = random.below(2) as u32;
        run.list(&mut random, &names, most, repeats);
    }
    for _ in 0..puts / 4 {
        run.wild(&mut random, &names);
    }
    let r = run.refused;
    println!(
        "index: {} puts of {} lists beside cqdb_put, names with one hash among them ({} such); accepted {}, refused 13: {}, 16: {}, 3: {}, 24: {}",
        run.puts, run.lists, names.twins.len() / 2, r[0], r[13], r[16], r[3], r[24]
    );
    println!("index: {} closes, {} growths and {} indexes made again between them; {} calls with any words", run.closes, run.growths, run.indexes, run.wild);
    let w = run.wild_refused;
    println!("index: puts by any words: accepted {}, refused 2: {}, 13: {}, 16: {}, 3: {}, 24: {}", w[0], w[2], w[13], w[16], w[3], w[24]);
    println!("index: {} answers compared with put and with the rule: {} different", run.tally.rule, run.tally.different);
    let reached = [0, 3, 13, 16, 24].iter().all(|&k| r[k] > puts / 1_000) && [0, 2, 3, 13, 16, 24].iter().all(|&k| w[k] > puts / 4_000);
    if !reached {
        println!("index: a kind of answer was met too seldom");
    }
    std::process::exit(i32::from(run.tally.different > 0 || !reached));
}

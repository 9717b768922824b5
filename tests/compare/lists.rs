// Whole lists of calls through the archive: puts and closes mixed, refused ones among them, from a two-way begin with repeats
// off or on. Each answer is compared with the formula of 01, 02 (v) and 02 (viii), which knows the calls, the choice and the
// buffer's length alone: 13 for a zero byte in the name, then with repeats off 16 for a name that was accepted before, then 3.
// The last image is compared with the Rust's of the accepted puts and with first and last puts, passes the check of both
// readings, and every two lists are compared with each other. With repeats off no name is accepted twice, and the accepted
// puts alone, with repeats on, make the same image.   lists [PAIRS]
mod archive;
mod names;
mod original;
mod rules;
mod seed;
mod tally;

use archive::{CloseAnswer, Counts, Record};
use names::Names;
use original::Put;
use seed::Random;
use std::collections::HashSet;
use tally::Tally;

const PAIRS: usize = 4_000;

#[derive(Clone)]
enum Call {
    Put(Vec<u8>, u32),
    Close,
}

// What a list left: its accepted puts, and the image of one more close.
struct Left {
    accepted: Vec<Put>,
    image: Vec<u8>,
}

// What a list's calls are lent.
struct Lent {
    record: Record,
    counts: Counts,
    buf: Vec<u8>,
}

struct Run {
    tally: Tally,
    // Puts that were accepted, refused with 13, with 16 and with 3.
    puts: [u64; 4],
    closes: u64,
    // How often two lists had the same accepted puts of a name, or of an id, and at least one of them.
    alike: [u64; 2],
}

// 2,072, plus 25 + name length for each put, plus 4 x (the largest id + 1) if there are any.
fn finished_size<'a>(puts: impl Iterator<Item = &'a Put> + Clone) -> u128 {
    let entries: u128 = puts.clone().map(|(name, _)| name.len() as u128 + 25).sum();
    let back = puts.map(|put| put.1 as u128 + 1).max().unwrap_or(0);
    2072 + entries + 4 * back
}

fn first_id(accepted: &[Put], name: &[u8]) -> Option<u32> {
    accepted.iter().find(|put| put.0 == name).map(|put| put.1)
}

// 02 (ii): 2,072 plus the sizes of the entries before the name's first; 0 without one.
fn first_place(accepted: &[Put], name: &[u8]) -> u32 {
    let before = accepted.iter().take_while(|put| put.0 != name);
    match first_id(accepted, name) {
        Some(_) => 2_072 + before.map(|put| 9 + put.0.len() as u32).sum::<u32>(),
        None => 0,
    }
}

fn last_name(accepted: &[Put], id: u32) -> Option<&[u8]> {
    accepted.iter().rev().find(|put| put.1 == id).map(|put| &put.0[..])
}

fn table(name: &[u8]) -> u32 {
    rules::hash(name) % 256
}

impl Run {
    fn put(&mut self, lent: &mut Lent, accepted: &mut Vec<Put>, put: &Put) {
        let size = finished_size(accepted.iter().chain([put]));
        let too_large = size > lent.buf.len() as u128 || size > 4_294_967_295;
        let held = lent.record.repeats == 0 && accepted.iter().any(|earlier| earlier.0 == put.0);
        let (want, kind) = match (put.0.contains(&0), held, too_large) {
            (true, _, _) => (13, 1),
            (false, true, _) => (16, 2),
            (false, false, true) => (3, 3),
            (false, false, false) => (0, 0),
        };
        let answer = archive::put(lent.record, &mut lent.counts, &mut lent.buf, &put.0, put.1);
        self.puts[kind] += 1;
        self.tally.rule(answer.refusal, want, || format!("put of {} bytes, id {}, to size {size}", put.0.len(), put.1));
        lent.record = answer.record;
        if want == 0 {
            accepted.push(put.clone());
        }
    }

    // No close is refused; its size follows from the accepted puts.
    fn close(&mut self, lent: &mut Lent, accepted: &[Put]) -> usize {
        let size = finished_size(accepted.iter()) as u32;
        let answer = archive::close(lent.record, &lent.counts, &mut lent.buf);
        let want = CloseAnswer { refusal: 0, size };
        self.closes += 1;
        self.tally.rule(answer, want, || format!("close of {} puts", accepted.len()));
        size as usize
    }

    // The calls, one more close, and a further one that leaves the same bytes.
    fn list(&mut self, random: &mut Random, repeats: u32, length: usize, calls: &[Call]) -> Left {
        let buf = random.bytes(length);
        let mut counts = [random.word(); 256];
        let begun = archive::begin(0, repeats, &mut counts, &buf);
        self.tally.rule(begun.refusal, 0, || format!("begin in {length} bytes"));
        let mut lent = Lent { record: begun.record, counts, buf };
        let mut accepted = Vec::new();
        for call in calls {
            match call {
                Call::Put(name, id) => self.put(&mut lent, &mut accepted, &(name.clone(), *id)),
                Call::Close => drop(self.close(&mut lent, &accepted)),
            }
        }
        let size = self.close(&mut lent, &accepted);
        let closed = lent.buf.clone();
        self.close(&mut lent, &accepted);
        self.tally.bytes(&lent.buf, &closed, || "closing twice".into());
        let image = lent.buf[..size].to_vec();
        self.tally.rust(image == original::image(false, &accepted), true, || format!("image of {accepted:?}"));
        self.tally.rule(lent.record.repeats, repeats, || "the choice that the record carries".into());
        Left { accepted, image }
    }

    // With repeats off: each name has one accepted put at most, and these puts alone, with repeats on, make the same image.
    fn without_repeats(&mut self, random: &mut Random, length: usize, left: &Left) {
        let names: HashSet<&Vec<u8>> = left.accepted.iter().map(|put| &put.0).collect();
        self.tally.rule(names.len(), left.accepted.len(), || format!("names of {:?}", left.accepted));
        let alone: Vec<Call> = left.accepted.iter().map(|(name, id)| Call::Put(name.clone(), *id)).collect();
        let again = self.list(random, 1, length, &alone);
        self.tally.rule(again.accepted == left.accepted, true, || "the accepted puts, put again".into());
        self.tally.bytes(&again.image, &left.image, || "the image of the accepted puts with repeats on".into());
    }

    fn opens(&mut self, left: &Left) {
        let given = archive::open(&left.image);
        self.tally.rule((given.refusal, given.num as usize), (0, left.accepted.len()), || "opening".into());
        self.tally.rule(archive::readings_agree(&left.image), 1, || format!("the check of both readings after {:?}", left.accepted));
    }

    // The first accepted put of a name; nothing exactly when there is none; and the bounds of the search.
    fn name(&mut self, left: &Left, name: &[u8]) {
        let given = archive::to_id(&left.image, name);
        let found = (given.found == 1).then_some(given.id);
        self.tally.rule(found, first_id(&left.accepted, name), || format!("name {name:02x?}"));
        let puts = left.accepted.iter().filter(|put| table(&put.0) == table(name)).count() as u32;
        let most = if found.is_some() { puts } else { puts + 1 };
        self.tally.rule(given.buckets <= most, true, || format!("{} buckets for {puts} puts, {name:02x?}", given.buckets));
        self.tally.rule(given.buckets, rules::to_id(&left.image, name).buckets, || format!("buckets for {name:02x?}"));
        self.tally.rule(given.offset, first_place(&left.accepted, name), || format!("offset for {name:02x?}"));
        if let (Ok(db), Ok(text)) = (original::open(&left.image), std::str::from_utf8(name)) {
            self.tally.rust(found, db.to_id(text), || format!("name {text:?}"));
        }
    }

    // The last accepted put of an id; nothing exactly when there is none. Its name, looked up, gives that name's first id; and
    // an id is home exactly when it has a name (02 (vi)).
    fn id(&mut self, left: &Left, id: u32) {
        let given = archive::named(&left.image, id);
        let want = last_name(&left.accepted, id);
        self.tally.rule(given, want, || format!("id {id}"));
        if let Some(name) = given {
            self.tally.rule(archive::panel(&left.image, id), archive::to_str(&left.image, id), || format!("the panel's reading of {id}"));
            let first = first_id(&left.accepted, name);
            self.tally.rule(archive::found_id(&left.image, name), first, || format!("the name of {id}"));
        }
        self.tally.rule(archive::home(&left.image, id), u32::from(want.is_some()), || format!("home {id}"));
        if let Ok(db) = original::open(&left.image) {
            self.tally.rust(given, db.to_str(id).map(|name| &**name), || format!("id {id}"));
        }
    }

    // The same accepted puts of a name, or of an id, in both lists: both images answer alike.
    fn alike(&mut self, a: &Left, b: &Left, names: &HashSet<Vec<u8>>, ids: &HashSet<u32>) {
        for name in names {
            let of = |left: &Left| -> Vec<u32> { left.accepted.iter().filter(|put| put.0 == *name).map(|put| put.1).collect() };
            if of(a) == of(b) {
                self.alike[0] += u64::from(!of(a).is_empty());
                let (x, y) = (archive::found_id(&a.image, name), archive::found_id(&b.image, name));
                self.tally.rule(x, y, || format!("two lists and the name {name:02x?}"));
            }
        }
        for &id in ids {
            let of = |left: &Left| -> Vec<Vec<u8>> { left.accepted.iter().filter(|put| put.1 == id).map(|put| put.0.clone()).collect() };
            if of(a) == of(b) {
                self.alike[1] += u64::from(!of(a).is_empty());
                let (x, y) = (archive::named(&a.image, id), archive::named(&b.image, id));
                self.tally.rule(x, y, || format!("two lists and the id {id}"));
            }
        }
    }

    // A name too long for a hash reads no bucket. Nothing touches its bytes.
    fn too_long(&mut self, left: &Left) {
        let name = vec![0u8; u32::MAX as usize];
        let given = archive::to_id(&left.image, &name);
        self.tally.rule((given.found, given.buckets, given.offset), (0, 0, 0), || "a name too long for a hash".into());
    }
}

// Puts with closes between them. Some ids are too large for most buffers, some for all.
fn calls(random: &mut Random, puts: Vec<Put>) -> Vec<Call> {
    let mut made = Vec::new();
    for (name, id) in puts {
        while random.once_in(4) {
            made.push(Call::Close);
        }
        let large = random.pick(&[600, 5_000, 0x3fff_ffff, 0xffff_fffe, 0xffff_ffff]);
        made.push(Call::Put(name, if random.once_in(25) { large } else { id }));
    }
    made
}

fn puts_of(calls: &[Call]) -> Vec<Put> {
    let put = |call: &Call| match call {
        Call::Put(name, id) => Some((name.clone(), *id)),
        Call::Close => None,
    };
    calls.iter().filter_map(put).collect()
}

// A buffer's length: about the size of some of the puts, or of all, or 2,072, or with room to spare.
fn length_for(random: &mut Random, calls: &[Call]) -> usize {
    let puts: Vec<Put> = puts_of(calls).into_iter().filter(|put| put.1 < 6_000).collect();
    let some = random.below(puts.len() + 1);
    let exact = |puts: &[Put]| finished_size(puts.iter()) as usize;
    match random.below(8) {
        0 => exact(&puts),
        1 => (exact(&puts) - 1).max(2072),
        2 => exact(&puts) + 1,
        3 | 4 => (exact(&puts[..some]) + random.below(5)).saturating_sub(2).max(2072),
        5 => 2072 + random.below(60),
        6 => exact(&puts[..some]) + random.below(200),
        _ => exact(&puts) + 3_000,
    }
}

// Another list: its own puts, and between them some of the first list's, in their order.
fn beside(random: &mut Random, calls: &[Call], others: Vec<Call>) -> Vec<Call> {
    let mut kept = calls.iter().filter(|_| random.once_in(2)).cloned().collect::<Vec<_>>().into_iter();
    let mut made = Vec::new();
    for other in others {
        made.push(other);
        made.extend(kept.next());
    }
    made.extend(kept);
    made
}

fn pair(run: &mut Run, random: &mut Random, names: &Names, most: usize) {
    let puts = names.list(random, most);
    let puts = names::repeating(random, names, puts);
    let first = calls(random, puts);
    let puts = names.list(random, most);
    let others = calls(random, puts);
    let second = beside(random, &first, others);
    let all: Vec<Put> = puts_of(&first).into_iter().chain(puts_of(&second)).collect();
    let mut asked: HashSet<Vec<u8>> = all.iter().map(|put| put.0.clone()).collect();
    let mates: Vec<Vec<u8>> = all.iter().take(4).map(|put| names.of_table(random, table(&put.0) as usize)).collect();
    asked.extend(mates);
    asked.extend([Vec::new(), names::any(random)]);
    let mut ids: HashSet<u32> = all.iter().flat_map(|put| [put.1, put.1.wrapping_add(1)]).collect();
    ids.extend([0, 1, 2, u32::MAX, random.word()]);
    let lefts = [&first, &second].map(|calls| {
        let (length, repeats) = (length_for(random, calls), random.below(2) as u32);
        let left = run.list(random, repeats, length, calls);
        if repeats == 0 {
            run.without_repeats(random, length, &left);
        }
        left
    });
    for left in &lefts {
        run.opens(left);
        asked.iter().for_each(|name| run.name(left, name));
        ids.iter().for_each(|&id| run.id(left, id));
    }
    run.alike(&lefts[0], &lefts[1], &asked, &ids);
}

fn main() {
    let pairs = std::env::args().nth(1).map_or(PAIRS, |text| text.parse().expect("a number of pairs"));
    let mut random = Random::new();
    println!("lists: seed {}", random.seed);
    let names = Names::new(&mut random);
    let mut run = Run { tally: Tally::default(), puts: [0; 4], closes: 0, alike: [0; 2] };
    let empty = run.list(&mut random, 0, 2072, &[]);
    run.opens(&empty);
    let one = run.list(&mut random, 0, 3000, &[Call::Put(Vec::new(), 0)]);
    run.too_long(&one);
    for i in 0..pairs {
        pair(&mut run, &mut random, &names, if i % 100 == 99 { 200 } else { 14 });
    }
    let [accepted, zero, repeated, full] = run.puts;
    println!(
        "lists: {} lists with {accepted} puts accepted, {zero} refused with 13, {repeated} with 16, {full} with 3, {} closes",
        2 * pairs + 2,
        run.closes
    );
    println!("lists: two lists alike in the puts of {} names and {} ids", run.alike[0], run.alike[1]);
    run.tally.end("lists");
}

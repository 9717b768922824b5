// A whole list in one call, through the archive, beside single calls: begin, each put in order and one close. Every answer, every
// byte of the image and every place of the answers is compared, and every byte from the size of an image of all names on, with no,
// little, enough and much lent memory that holds random words before. Names meet in tables, buckets and whole hashes, repeat at every
// distance and have zero bytes; lists have every size up to 5,000; buffers are exact, a byte short and longer; lists are refused for
// their ends, ids, places and buffers.
// build [LISTS]
mod original {
    pub type Put = (Vec<u8>, u32);
}
mod archive;
mod names;
mod rules;
mod seed;
mod tally;

use archive::{BuildAnswer, Packed};
use names::Names;
use original::Put;
use rules::HEAD;
use seed::Random;
use tally::Tally;

const LISTS: usize = 50_000;
const SIZES: usize = 5_000;
const LARGE: usize = 1_000_000;

// A list as the call is lent it.
struct List {
    names: Vec<u8>,
    ends: Vec<u64>,
    ids: Vec<u32>,
}

impl List {
    fn new(puts: &[Put]) -> List {
        let mut list = List { names: Vec::new(), ends: Vec::new(), ids: Vec::new() };
        for (name, id) in puts {
            list.names.extend(name);
            list.ends.push(list.names.len() as u64);
            list.ids.push(*id);
        }
        list
    }

    fn packed(&self) -> Packed<'_> {
        Packed { names: &self.names, ends: &self.ends, ids: &self.ids }
    }
}

// What the call answers and leaves.
#[derive(PartialEq, Debug)]
struct Left {
    answer: BuildAnswer,
    answers: Vec<u32>,
    buf: Vec<u8>,
}

// "begin, the puts in order, and one close", by single calls. Places behind the last name keep their content.
fn single(mode: u32, repeats: u32, mut buf: Vec<u8>, puts: &[Put], mut answers: Vec<u32>) -> Left {
    let mut counts = [7; 256];
    let begun = archive::begin(mode, repeats, &mut counts, &buf);
    assert_eq!(begun.refusal, 0, "the buffer has 2,072 bytes");
    let mut record = begun.record;
    for ((name, id), place) in puts.iter().zip(&mut answers) {
        let put = archive::put(record, &mut counts, &mut buf, name, *id);
        *place = put.refusal;
        record = put.record;
    }
    let closed = archive::close(record, &counts, &mut buf);
    let answer = BuildAnswer { refusal: closed.refusal, size: closed.size, accepted: record.entries };
    Left { answer, answers, buf }
}

fn built(mode: u32, repeats: u32, mut buf: Vec<u8>, list: Packed<'_>, mut answers: Vec<u32>, scratch: &mut [u32]) -> Left {
    let answer = archive::build(mode, repeats, &mut buf, list, &mut answers, scratch);
    Left { answer, answers, buf }
}

// The size of the image with every put accepted.
fn whole(mode: u32, puts: &[Put]) -> usize {
    let names: usize = puts.iter().map(|(name, _)| 25 + name.len()).sum();
    let back = puts.iter().map(|&(_, id)| 4 * (id as usize + 1)).max().unwrap_or(0);
    HEAD + names + if mode == 0 { back } else { 0 }
}

// Are these the bytes that the call promises: the image, and from the size of an image of all names on what stood there? Those between
// are unspecified.
fn promised(given: &Left, wanted: &Left, all: usize) -> bool {
    let size = wanted.answer.size as usize;
    let behind = all.clamp(size, wanted.buf.len());
    given.buf.len() == wanted.buf.len() && given.buf[..size] == wanted.buf[..size] && given.buf[behind..] == wanted.buf[behind..]
}

fn words(random: &mut Random, n: usize) -> Vec<u32> {
    (0..n).map(|_| if random.once_in(2) { random.word() } else { random.below(2 * n + 2) as u32 }).collect()
}

// Names with repeats at every distance, some with a zero byte, some with an id that leaves no room.
fn puts(random: &mut Random, names: &Names) -> Vec<Put> {
    let mut puts = names.list(random, 40);
    if random.once_in(2) {
        puts = names::repeating(random, names, puts);
    }
    for i in 0..puts.len() {
        if random.once_in(9) {
            puts[i].0 = puts[random.below(i + 1)].0.clone();
        }
        if random.once_in(12) {
            let at = random.below(puts[i].0.len() + 1);
            puts[i].0.insert(at, 0);
        }
        if random.once_in(30) {
            puts[i].1 = random.pick(&[5_000, 4_000_000_000, u32::MAX]);
        }
    }
    puts
}

fn accepted_list(random: &mut Random, names: &Names, tally: &mut Tally) -> usize {
    let puts = puts(random, names);
    let (mode, repeats) = (random.below(2) as u32, random.below(3).min(1) as u32 ^ 1);
    let need = whole(mode, &puts).min(60_000);
    let first = single(mode, repeats, vec![0; need], &puts, vec![0; puts.len()]).answer.size as usize;
    let len = match random.below(6) {
        0 => need,
        1 => need.saturating_sub(1),
        2 => first,
        3 => first.saturating_sub(1),
        4 => HEAD + random.below(need - HEAD + 1),
        _ => need + random.below(300),
    };
    let buf = random.bytes(len.max(HEAD));
    let places = random.below(3);
    let answers = words(random, puts.len() + places);
    let n = puts.len();
    // no index, one of a slot a name, one of two, and of five words; and a word less or more
    let much = random.pick(&[
        0,
        1,
        n,
        (2 * n).saturating_sub(1),
        2 * n,
        2 * n + 1,
        3 * n,
        (4 * n).saturating_sub(1),
        4 * n,
        (5 * n).saturating_sub(1),
        5 * n,
        5 * n,
        5 * n + 7,
    ]);
    let mut scratch = words(random, much);
    let list = List::new(&puts);
    let mut lent = list.packed();
    let more = random.bytes(random.seed as usize % 3);
    let names = [&list.names[..], &more].concat();
    lent.names = &names;
    let ids = [&list.ids[..], &answers[..random.below(answers.len() + 1)]].concat();
    lent.ids = &ids;
    let given = built(mode, repeats, buf.clone(), lent, answers.clone(), &mut scratch);
    let wanted = single(mode, repeats, buf, &puts, answers);
    tally.rule(given.answer, wanted.answer, || format!("answer, mode {mode}, repeats {repeats}, {much} words, {puts:?}"));
    tally.rule(&given.answers, &wanted.answers, || format!("answers, mode {mode}, repeats {repeats}, {much} words, {puts:?}"));
    let kept = promised(&given, &wanted, whole(mode, &puts));
    tally.rule(kept, true, || format!("buffer, mode {mode}, repeats {repeats}, {much} words, {puts:?}"));
    n
}

// A list of n different names, clean, or with a name that comes again or one with a zero byte; in a buffer of the image's size, longer, or too
// short for the last name; with memory for an index, and with none.
fn sized_list(random: &mut Random, n: usize, tally: &mut Tally) {
    let base = random.word();
    let name = |i: u32| format!("P{:08X}", base.wrapping_add(i).wrapping_mul(2_654_435_761)).into_bytes();
    let mut puts: Vec<Put> = (0..n as u32).map(|i| (name(i), i)).collect();
    // single puts with repeats off walk all earlier entries
    let spoilt = n <= 400 && n > 1 && random.once_in(2);
    if spoilt {
        let at = 1 + random.below(n - 1);
        if random.once_in(2) {
            puts[at].0 = puts[random.below(at)].0.clone();
        } else {
            puts[at].0[3] = 0;
        }
    }
    let (mode, repeats) = (random.below(2) as u32, if spoilt { 0 } else { 1 });
    let all = whole(mode, &puts);
    let room = if n <= 400 { random.pick(&[all, all + 9, all - 1]) } else { random.pick(&[all, all + 9]) };
    let list = List::new(&puts);
    let buf = vec![9; room];
    let wanted = single(mode, repeats, buf.clone(), &puts, vec![7; n]);
    for much in [0, 5 * n] {
        let given = built(mode, 0, buf.clone(), list.packed(), vec![7; n], &mut vec![u32::MAX; much]);
        tally.rule(given.answer, wanted.answer, || format!("{n} names, mode {mode}, {much} words"));
        tally.rule(given.answers == wanted.answers, true, || format!("the answers of {n} names, mode {mode}, {much} words"));
        tally.rule(promised(&given, &wanted, all), true, || format!("the image of {n} names, mode {mode}, {much} words"));
    }
}

// A list that is refused: the first refusal of 2, 14, 15 and 1, and nothing is written.
fn refused_list(random: &mut Random, names: &Names, tally: &mut Tally) {
    let puts = puts(random, names);
    let mut list = List::new(&puts);
    let n = puts.len();
    let (mut mode, mut repeats, mut places, mut len) = (random.below(2) as u32, random.below(2) as u32, n, whole(0, &puts).min(9_000));
    let mut due = 0;
    if random.once_in(2) {
        len = random.below(HEAD);
        due = 1;
    }
    if n > 0 && random.once_in(2) {
        if random.once_in(2) {
            places = random.below(n);
        } else {
            list.ids.truncate(random.below(n));
        }
        due = 15;
    }
    if n > 0 && random.once_in(2) {
        let i = random.below(n);
        let before = if i == 0 { 0 } else { list.ends[i - 1] };
        if before > 0 && random.once_in(2) {
            list.ends[i] = random.below(before as usize) as u64;
        } else {
            list.ends[i] = random.pick(&[list.names.len() as u64 + 1, 1 << 32, u64::MAX]);
        }
        due = 14;
    }
    if due == 0 || random.once_in(5) {
        let odd = 2 + random.word() % 9;
        if random.once_in(2) {
            mode = odd;
        } else {
            repeats = odd;
        }
        due = 2;
    }
    let (buf, answers, scratch) = (random.bytes(len), words(random, places), words(random, 5 * n));
    let mut after = scratch.clone();
    let given = built(mode, repeats, buf.clone(), list.packed(), answers.clone(), &mut after);
    let answer = BuildAnswer { refusal: due, size: 0, accepted: 0 };
    tally.rule(given, Left { answer, answers, buf }, || format!("refused list, {n} names"));
    tally.rule(after == scratch, true, || format!("lent memory of a refused list, {n} names"));
}

// A million names once, some of them repeated; single puts with repeats on make the image of the first of each.
fn large(random: &mut Random, tally: &mut Tally) {
    let fresh: Vec<Put> = (0..LARGE).map(|i| (format!("P{:08X}", (i as u32).wrapping_mul(2_654_435_761)).into_bytes(), i as u32)).collect();
    let mut puts = Vec::new();
    let mut due = Vec::new();
    for put in &fresh {
        puts.push(put.clone());
        due.push(0);
        if random.once_in(10) {
            let again = fresh[random.below(put.1 as usize + 1)].0.clone();
            puts.push((again, random.below(LARGE) as u32));
            due.push(16);
        }
    }
    let list = List::new(&puts);
    let mut scratch = vec![u32::MAX; 7 * puts.len()];
    // room for the accepted names alone, and for all
    for room in [whole(0, &fresh), whole(0, &puts)] {
        let buf = vec![9; room];
        let given = built(0, 0, buf.clone(), list.packed(), vec![1; puts.len()], &mut scratch);
        let wanted = single(0, 1, buf, &fresh, vec![0; fresh.len()]);
        tally.rule(given.answer, wanted.answer, || "a million names".into());
        tally.rule(given.answers == due, true, || "the answers of a million names".into());
        tally.rule(promised(&given, &wanted, whole(0, &puts)), true, || "the image of a million names".into());
    }
}

fn main() {
    let lists = std::env::args().nth(1).map_or(LISTS, |text| text.parse().expect("a number of lists"));
    let mut random = Random::new();
    println!("build: seed {}", random.seed);
    let names = Names::new(&mut random);
    let mut tally = Tally::default();
    let mut put = 0;
    for i in 0..lists {
        put += accepted_list(&mut random, &names, &mut tally);
        if i % 10 == 0 {
            refused_list(&mut random, &names, &mut tally);
        }
    }
    for n in 1..=SIZES.min(lists) {
        sized_list(&mut random, n, &mut tally);
    }
    large(&mut random, &mut tally);
    println!(
        "build: {lists} lists with {put} puts beside single calls, {} refused lists, lists of 1 to {} names, and a million names",
        lists.div_ceil(10),
        SIZES.min(lists)
    );
    tally.end("build");
}

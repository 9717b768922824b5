// The table of costs of include/cqdb.h and docs/FORMAT.md: the time of each call of the archive, in ns, with names of 9 bytes, for
// 4,096 and for 100,000 entries; and its stack, as tests/stack measured it.   costs MEASURED
// The time is the best of several repetitions, in rounds over all calls, so that other work that runs for a while does not count.
// Questions come in an order that jumps about. A call that does not depend on the number of entries has the first number alone.
#[path = "../tests/compare/archive.rs"]
mod archive;
mod costs_of_lists;
mod costs_of_reading;
#[allow(dead_code)]
mod names;

use archive::{Counts, Date, Packed, Pair, Record, Window};
use names::Names;
use std::collections::HashMap;
use std::hint::black_box;
use std::time::{Duration, Instant};

pub const LENGTH: usize = 9;
const ROUNDS: usize = 6;

/// A call, for each of what its time counts, and the time.
pub type Cost = (&'static str, &'static str, f64);

/// The best time of several, in ns for each of n; a repetition gives its own time.
pub fn least_of(n: usize, mut repetition: impl FnMut() -> Duration) -> f64 {
    let begin = Instant::now();
    let mut least = Duration::MAX;
    let mut count = 0;
    while count < 5 || begin.elapsed() < Duration::from_millis(100) {
        least = least.min(repetition());
        count += 1;
    }
    least.as_nanos() as f64 / n as f64
}

/// The same where a repetition is all that counts.
pub fn least(n: usize, mut calls: impl FnMut()) -> f64 {
    least_of(n, || {
        let begin = Instant::now();
        calls();
        begin.elapsed()
    })
}

/// The best time of one call, of a thousand in a row.
pub fn one<T>(mut call: impl FnMut() -> T) -> f64 {
    least(1_000, || {
        for _ in 0..1_000 {
            black_box(call());
        }
    })
}

/// A list of names that count up, and its image.
pub struct List {
    pub n: usize,
    pub names: Vec<u8>,
    pub ends: Vec<u64>,
    pub ids: Vec<u32>,
    pub image: Vec<u8>,
}

impl List {
    fn new(n: usize) -> List {
        List::behind(0, n)
    }

    /// The names behind so many.
    pub fn behind(first: usize, n: usize) -> List {
        let names = Names::new('p', LENGTH, first..first + n).all().concat().into_bytes();
        let ends = (1..=n as u64).map(|i| LENGTH as u64 * i).collect();
        let ids = (0..n as u32).collect();
        let mut list = List { n, names, ends, ids, image: vec![] };
        let needs = archive::build_needs(0, list.names.len(), &list.ids);
        let mut image = vec![0; needs.bytes as usize];
        let answer = archive::build(0, 0, &mut image, list.packed(), &mut vec![0; n], &mut vec![0; 5 * n]);
        assert_eq!((answer.accepted as usize, answer.size as usize), (n, image.len()));
        list.image = image;
        list
    }

    pub fn packed(&self) -> Packed<'_> {
        Packed { names: &self.names, ends: &self.ends, ids: &self.ids }
    }

    pub fn each(&self) -> impl Iterator<Item = (&[u8], u32)> {
        self.names.chunks(LENGTH).zip(self.ids.iter().copied())
    }
}

fn date(year: u16, month: u8, day: u8) -> Date {
    Date { year, month, day }
}

fn standing(id: u32) -> Window {
    Window { id, first: date(2024, 1, 1), end: date(2025, 1, 1) }
}

// Names on a date: with one window, and what each further one costs.
fn seasons(list: &List) -> Vec<Cost> {
    let (one_window, many): (_, Vec<Window>) = ([standing(77)], (0..1_000).map(standing).collect());
    let on =
        |windows: &[Window]| archive::name_on(&list.image, 77, black_box(date(2024, 2, 29)), black_box(windows)).start;
    let further = least(many.len(), || {
        black_box(on(&many));
    });
    vec![("name_on", "call with one window", one(|| on(&one_window))), ("name_on", "window of a thousand", further)]
}

// Bundles of images without an entry, and an append of an image of 4,096.
fn bundles(list: &List) -> Vec<Cost> {
    const IMAGES: usize = 256;
    let mut empty = vec![0; 2_072];
    archive::build(0, 0, &mut empty, Packed { names: &[], ends: &[], ids: &[] }, &mut [], &mut []);
    let mut file = empty.repeat(IMAGES);
    let end = (IMAGES - 1) * empty.len();
    let open = one(|| assert_eq!(archive::bundle_open(black_box(&file), IMAGES as u64 - 1).num, 0)) / IMAGES as f64;
    let count = one(|| assert_eq!(archive::bundle_count(black_box(&file)).images as usize, IMAGES)) / IMAGES as f64;
    let append = one(|| archive::bundle_append(black_box(&mut file), end as u64, &empty)) / IMAGES as f64;
    let mut buf = vec![0; list.image.len()];
    let copied = least(1, || {
        black_box(archive::bundle_append(black_box(&mut buf), 0, &list.image));
    });
    vec![
        ("bundle_open", "image up to the one that is opened", open),
        ("bundle_count", "image", count),
        ("bundle_append", "image in the file", append),
        ("bundle_append", "image of 157,720 bytes, its copy", copied),
    ]
}

// Sheets of three lists, and a round that is looked through for each of its pairs.
fn rounds(list: &List) -> Vec<Cost> {
    let ids = &list.ids[..100];
    let mut sheet = vec![0; 1_206];
    let write = least(100 * 300, || {
        for _ in 0..100 {
            assert_eq!(archive::sheet_write(black_box(&mut sheet), [ids, ids, ids]).length, 1_206);
        }
    });
    let pairs: Vec<Pair> = (0..64).map(|i| Pair { reference: 4_000 + i, wall: 4_031 + i }).collect();
    let order = least(64 * list.n, || {
        black_box(archive::references_first(black_box(&pairs), black_box(&list.ids)));
    });
    let (few, windows) = (&list.ids[..512], list.ids[..512].iter().map(|&id| standing(id)).collect::<Vec<Window>>());
    let held = least(512 * 512, || {
        assert_eq!(archive::preflight_dates(black_box(&windows), few, date(2024, 1, 1), date(2024, 2, 29)).question, 0);
    });
    vec![
        ("preflight_dates", "window and id of the round, at most", 2.0 * held),
        ("sheet_read", "call", one(|| archive::sheet_read(black_box(&sheet)).refusal)),
        ("sheet_write", "id", write),
        ("references_first", "pair and id of the round, at most", order),
    ]
}

// The calls whose time does not depend on the number of entries.
fn small(list: &List) -> Vec<Cost> {
    let (name, long) = (&list.names[..LENGTH], vec![7; 1_024]);
    let mut counts: Counts = [0; 256];
    let mut buf = vec![0; 157_720];
    let record: Record = archive::begin(0, 1, &mut counts, &buf).record;
    let load = least(1, || assert_eq!(archive::load(black_box(1), &mut buf).accepted, 4_096));
    let mut costs = vec![
        ("version_number", "call", one(archive::version_number)),
        ("hash", "name of 9 bytes", one(|| archive::hash(black_box(name), 0).hash)),
        ("hash", "name of 1,024 bytes", one(|| archive::hash(black_box(&long), 0).hash)),
        ("begin", "call", one(|| archive::begin(0, 1, black_box(&mut counts), &buf).refusal)),
        ("index_words", "call", one(|| archive::index_words(black_box(4_096)))),
        ("size_with", "call", one(|| archive::size_with(black_box(&record), 9, 7))),
        ("grown", "call", one(|| archive::grown(black_box(record), 200_000).refusal)),
        ("load", "load of 4,096 entries", load),
    ];
    costs.push(costs_of_lists::walked(&List::new(1_024)));
    costs.extend(seasons(list));
    costs.extend(bundles(list));
    costs.extend(rounds(list));
    costs
}

fn shown(time: f64) -> String {
    if time < 9.95 {
        return format!("{time:.1}");
    }
    let digits = format!("{time:.0}");
    let parts: Vec<&str> =
        digits.as_bytes().rchunks(3).rev().map(|part| std::str::from_utf8(part).expect("digits")).collect();
    parts.join(",")
}

// CALL: BYTES, a line for each call; in KB, rounded up, where they are 1 KB or more.
fn stacks(measured: &str) -> HashMap<&str, u64> {
    let line = |line| str::rsplit_once(line, ": ").expect("a call and its bytes");
    let all = measured.lines().map(line).map(|(call, bytes)| (call, bytes.parse::<u64>().expect("a number")));
    all.filter(|&(_, bytes)| bytes >= 1_024).map(|(call, bytes)| (call, bytes.div_ceil(1_024))).collect()
}

// The best of several rounds; each has the same calls in the same order.
fn best(round: impl Fn() -> Vec<Cost>) -> Vec<Cost> {
    let least = |a: Vec<Cost>, b: Vec<Cost>| a.into_iter().zip(b).map(|(a, b)| (a.0, a.1, a.2.min(b.2))).collect();
    (1..ROUNDS).map(|_| round()).fold(round(), least)
}

fn main() {
    let file = std::env::args().nth(1).expect("the file that tests/stack wrote");
    let measured = std::fs::read_to_string(file).expect("what tests/stack measured");
    let stacks = stacks(&measured);
    let (few, many) = (List::new(4_096), List::new(100_000));
    let by_size =
        |list| costs_of_reading::run(list).into_iter().chain(costs_of_lists::run(list)).collect::<Vec<Cost>>();
    let large = best(|| by_size(&many));
    let second = |call, each| large.iter().find(|cost| (cost.0, cost.1) == (call, each)).map(|cost| cost.2);
    let mut costs = best(|| by_size(&few).into_iter().chain(small(&few)).collect());
    costs.sort_by_key(|cost| cost.0);
    println!("{:<32}{:<38}{:>8}{:>10}{:>8}", "call", "time for each", "4,096", "100,000", "stack");
    let mut before = "";
    for (call, each, time) in costs {
        let second = second(call, each).map_or(String::new(), shown);
        let stack = stacks.get(call).filter(|_| call != before).map_or(String::new(), u64::to_string);
        println!("{}", format!("{call:<32}{each:<38}{:>8}{second:>10}{stack:>8}", shown(time)).trim_end());
        before = call;
    }
}

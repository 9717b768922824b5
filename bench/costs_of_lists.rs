// What writing a list costs, and the checks of a whole image (bench/costs.rs).
use crate::archive::{self, Counts, Packed, Record};
use crate::{least, least_of, Cost, List};
use std::hint::black_box;
use std::time::{Duration, Instant};

// Begin and all puts, with repeats on or off.
fn puts(list: &List, repeats: u32, counts: &mut Counts, buf: &mut [u8]) -> Record {
    let mut record = archive::begin(0, repeats, counts, buf).record;
    for (name, id) in list.each() {
        archive::put_in(&mut record, counts, buf, name, id);
    }
    assert_eq!(record.entries as usize, list.n);
    record
}

// All puts by an index that was made before the first one.
fn puts_indexed(list: &List, buf: &mut [u8], slots: &mut [u32]) -> Duration {
    let mut counts = [0; 256];
    let mut record = archive::begin(0, 0, &mut counts, buf).record;
    assert_eq!(archive::index(record, &counts, buf, slots), 0);
    let begin = Instant::now();
    for (name, id) in list.each() {
        assert_eq!(archive::put_indexed(&mut record, &mut counts, buf, slots, name, id), 0);
    }
    begin.elapsed()
}

// The close of all puts.
fn closed(list: &List, buf: &mut [u8]) -> Duration {
    let mut counts = [0; 256];
    let record = puts(list, 1, &mut counts, buf);
    let begin = Instant::now();
    assert_eq!(archive::close(record, &counts, buf).refusal, 0);
    begin.elapsed()
}

// Lists as long as this one, of different names: 64 of a short one, since of one list again and again the processor learns each branch.
fn like(list: &List) -> Vec<List> {
    let count = if list.n <= 4_096 { 64 } else { 1 };
    (0..count).map(|i| List::behind(i * list.n, list.n)).collect()
}

// Single puts and close over several lists in turn; then an index and a walk of one.
fn writing(list: &List) -> Vec<Cost> {
    let lists = like(list);
    let each = |timed: &mut dyn FnMut(&List) -> Duration| {
        least_of(lists.len() * list.n, || lists.iter().map(&mut *timed).sum())
    };
    let mut counts = [0; 256];
    let mut buf = vec![0; list.image.len()];
    let mut slots = vec![0; archive::index_words(list.n)];
    let indexed = each(&mut |list| puts_indexed(list, &mut buf, &mut slots));
    let single = least(lists.len() * list.n, || {
        lists.iter().for_each(|list| drop(black_box(puts(list, 1, &mut counts, &mut buf))));
    });
    let close = each(&mut |list| closed(list, &mut buf));
    assert!(lists.last().is_some_and(|last| last.image == buf), "the image of the last list");
    let record = puts(list, 1, &mut counts, &mut buf);
    let index = least(list.n, || assert_eq!(archive::index(record, &counts, &buf, &mut slots), 0));
    // One more name walks all entries, and is refused for want of room.
    let off = Record { repeats: 0, ..record };
    let walk =
        least(list.n, || assert_eq!(archive::put(off, &mut counts, &mut buf, black_box(b"absent"), 0).refusal, 3));
    vec![
        ("put, repeats on", "call", single),
        ("put, repeats off", "earlier entry", walk),
        ("put_indexed", "call", indexed),
        ("index", "entry", index),
        ("close", "entry", close),
    ]
}

// A whole list in one call, with no lent memory.
fn built(list: &List) -> f64 {
    let (mut buf, mut refusals) = (vec![0; list.image.len()], vec![0; list.n]);
    least(list.n, || {
        let answer = archive::build(0, 0, black_box(&mut buf), list.packed(), &mut refusals, &mut []);
        assert_eq!(answer.accepted as usize, list.n);
    })
}

// The same with its last name equal to its first, which is refused, and with so many words of lent memory.
fn built_refused(list: &List, words: usize) -> f64 {
    let (mut buf, mut refusals, mut scratch) = (vec![0; list.image.len()], vec![0; list.n], vec![0; words]);
    let size = list.names.len() / list.n;
    let names = [&list.names[..list.names.len() - size], &list.names[..size]].concat();
    let repeated = Packed { names: &names, ..list.packed() };
    least(list.n, || {
        let answer = archive::build(0, 0, black_box(&mut buf), repeated, &mut refusals, &mut scratch);
        assert_eq!(answer.accepted as usize, list.n - 1);
    })
}

fn building(list: &List) -> Vec<Cost> {
    let needs = || {
        black_box(archive::build_needs(0, list.names.len(), black_box(&list.ids)));
    };
    vec![
        ("build_needs", "id", least(list.n, needs)),
        ("build, no name refused", "name", built(list)),
        ("build, a name refused, 5 words", "name", built_refused(list, 5 * list.n)),
    ]
}

/// Each of n names is compared with n / 2 earlier ones: for a short list.
pub fn walked(list: &List) -> Cost {
    ("build, a name refused, no words", "name and earlier name", built_refused(list, 0) * 2.0 / list.n as f64)
}

fn checking(list: &List) -> Vec<Cost> {
    let image = &list.image;
    let mut counts = [0; 16];
    vec![
        ("canonical", "entry", least(list.n, || assert_eq!(archive::canonical(black_box(image)), 1))),
        ("one_to_one", "entry", least(list.n, || assert_eq!(archive::one_to_one(black_box(image)).ok, 1))),
        ("average", "entry", least(list.n, || assert_eq!(archive::average(black_box(image)).refusal, 0))),
        ("lengths", "entry", least(list.n, || assert_eq!(archive::lengths(black_box(image), &mut counts), 0))),
    ]
}

// A report of 512 ids, whose sheet lists them alone.
fn reports(list: &List) -> Vec<Cost> {
    let (image, round) = (&list.image, &list.ids[..512]);
    let mut sheet = vec![0; 6 + 4 * round.len()];
    assert_eq!(archive::sheet_write(&mut sheet, [&[], round, &[]]).refusal, 0);
    let report = || assert_eq!(archive::preflight(black_box(image), image, &sheet, round, &[]).compared, 512);
    let first = || assert_eq!(archive::preflight_first(black_box(image), &sheet, round).question, 0);
    vec![("preflight", "report of 512 ids", least(1, report)), ("preflight_first", "report of 512 ids", least(1, first))]
}

pub fn run(list: &List) -> Vec<Cost> {
    let mut costs = writing(list);
    costs.extend(building(list));
    costs.extend(checking(list));
    costs.extend(reports(list));
    costs
}

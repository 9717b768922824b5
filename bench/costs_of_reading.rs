// What the reading calls cost on the image of a list (bench/costs.rs).
use crate::archive::{self, IdAnswer, StrAnswer};
use crate::names::{mixed, Names};
use crate::{least, one, Cost, List, LENGTH};
use std::hint::black_box;

const ROUND: usize = 512;

// Questions for all items in turn; the answers are added up.
fn each<T: Copy>(items: &[T], mut call: impl FnMut(T) -> u64) -> f64 {
    least(items.len(), || {
        black_box(items.iter().fold(0u64, |sum, &item| sum.wrapping_add(call(item))));
    })
}

fn lookups(list: &List) -> Vec<Cost> {
    let image = &list.image;
    let [found, absent] = ['p', 'm'].map(|letter| Names::new(letter, LENGTH, mixed(list.n)));
    let lookup = |names: &Names| each(&names.all(), |name| archive::to_id(image, name.as_bytes()).id.into());
    vec![("to_id", "name that is found", lookup(&found)), ("to_id", "name that is absent", lookup(&absent))]
}

fn namings(list: &List) -> Vec<Cost> {
    let image = &list.image;
    let ids: Vec<u32> = mixed(list.n).map(|i| i as u32).collect();
    vec![
        ("to_str", "call", each(&ids, |id| archive::to_str(image, id).start)),
        ("panel", "call", each(&ids, |id| archive::panel(image, id).start)),
        ("entry", "call", each(&offsets(list), |offset| archive::entry(image, offset).start)),
        ("table", "call", each(&ids, |id| archive::table(image, id).start.into())),
        ("home", "call", each(&ids, |id| archive::home(image, id).into())),
        ("moved", "call", each(&ids, |id| archive::moved(image, image, id).id.into())),
    ]
}

// Where the names' entries stand, in an order that jumps about.
fn offsets(list: &List) -> Vec<u32> {
    let names = Names::new('p', LENGTH, mixed(list.n));
    names.all().iter().map(|name| archive::to_id(&list.image, name.as_bytes()).offset).collect()
}

// Rounds of 512, which take turns over the list.
fn rounds(list: &List, letter: char, what: &'static str) -> Cost {
    let count = (list.n / ROUND).min(64);
    let names = Names::new(letter, LENGTH, mixed(list.n).take(count * ROUND)).all().concat().into_bytes();
    let ends = &list.ends[..ROUND];
    let mut answers = vec![IdAnswer { found: 0, id: 0, buckets: 0, offset: 0 }; ROUND];
    let time = least(count * ROUND, || {
        for round in names.chunks(ROUND * LENGTH) {
            black_box(archive::round(&list.image, round, ends, &mut answers));
        }
    });
    ("round", what, time)
}

fn name_rounds(list: &List) -> Cost {
    let ids: Vec<u32> = mixed(list.n).take(list.n / ROUND * ROUND).map(|i| i as u32).collect();
    let mut answers = vec![StrAnswer { found: 0, len: 0, start: 0 }; ROUND];
    let time = least(ids.len(), || {
        for round in ids.chunks(ROUND) {
            black_box(archive::name_round(&list.image, round, &mut answers));
        }
    });
    ("name_round", "id", time)
}

fn whole(list: &List) -> Vec<Cost> {
    let (image, n) = (&list.image, list.n);
    let mut out = vec![0; 45 * n];
    vec![
        ("open", "call", one(|| archive::open(black_box(image)).num)),
        ("size_hint", "call", one(|| archive::size_hint(black_box(image), 0))),
        ("page_length", "call", one(|| archive::page_length(black_box(image)))),
        (
            "next_change",
            "id up to the change",
            least(n, || assert_eq!(archive::next_change(image, black_box(image), 0).found, 0)),
        ),
        (
            "readings_agree",
            "id below the back size",
            least(n, || assert_eq!(archive::readings_agree(black_box(image)), 1)),
        ),
        ("page", "line", least(n, || assert_eq!(archive::page(black_box(image), &mut out).refusal, 0))),
        (
            "page_part",
            "line",
            least(n, || assert_eq!(archive::page_part(black_box(image), 0, n as u32, &mut out).refusal, 0)),
        ),
    ]
}

pub fn run(list: &List) -> Vec<Cost> {
    let mut costs = lookups(list);
    costs.extend(namings(list));
    costs.extend([
        rounds(list, 'p', "name that is found"),
        rounds(list, 'm', "name that is absent"),
        name_rounds(list),
    ]);
    costs.extend(whole(list));
    costs
}

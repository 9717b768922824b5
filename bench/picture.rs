// The picture of docs/BENCHMARKS.md: what a lookup and a name of a build cost over the number of names, for ours, the Rust and, where its
// library is installed, tinycdb. Prints an SVG; the numbers go to standard error.
#[path = "../tests/compare/archive.rs"]
mod archive;
mod chart;
#[allow(dead_code)]
mod names;
mod side;
#[allow(dead_code)]
mod table;

use archive::Packed;
use chart::{Panel, Series};
use cqdb::{CQDBWriter, CQDB};
use names::{drawn, mixed, Names};
use side::{List, Questions, Side};
use std::hint::black_box;
use std::io::Cursor;
use table::time;

const LENGTH: usize = 9;

// What is measured at one number of names: the three sides' lookup and build.
struct Costs {
    lookups: [Option<f64>; 3],
    builds: [Option<f64>; 3],
}

fn least(cost: &mut Option<f64>, now: f64) {
    *cost = Some(cost.map_or(now, |before| before.min(now)));
}

fn tinycdb() -> Option<Side> {
    let file = std::env::temp_dir().join(format!("cqdb-picture-{}", std::process::id()));
    peer!(tinycdb).map(|peer| Side { name: "tinycdb", peer, file })
}

fn measure(n: usize, repetitions: usize) -> Costs {
    let put = Names::of(LENGTH, drawn(1).take(n));
    let put = put.all();
    let text = put.concat().into_bytes();
    let ends: Vec<u64> = (1..=n as u64).map(|i| i * LENGTH as u64).collect();
    let ids: Vec<u32> = (0..n as u32).collect();
    let size = 2072 + n * (29 + LENGTH);
    let (mut ours, mut rust) = (vec![0u8; size], vec![0u8; size]);
    let (mut refusals, mut scratch) = (vec![0; n], vec![0; 5 * n]);
    let asked = Names::of(LENGTH, mixed(n).map(|i| put[i].to_string()));
    let questions = Questions { names: asked.all(), answers: mixed(n).map(|i| i as i64).collect() };
    let list = List { bytes: text.as_ptr(), length: LENGTH, n };
    let peer = tinycdb();
    let mut costs = Costs { lookups: [None; 3], builds: [None; 3] };
    for _ in 0..repetitions {
        least(&mut costs.builds[0], time(n, || {
            let packed = Packed { names: &text, ends: &ends, ids: &ids };
            let answer = archive::build(0, 0, black_box(&mut ours), packed, &mut refusals, &mut scratch);
            assert_eq!((answer.refusal, answer.accepted as usize), (0, n));
        }));
        least(&mut costs.builds[1], time(n, || {
            let mut writer = CQDBWriter::new(Cursor::new(&mut rust[..])).expect("a stream in memory");
            put.iter().enumerate().for_each(|(id, name)| writer.put(name, id as u32).expect("room"));
        }));
        if let Some(side) = &peer {
            least(&mut costs.builds[2], side.build(side.peer.add.expect("tinycdb can add"), &list));
        }
    }
    assert!(ours == rust, "both wrote one image");
    let db = CQDB::new(&rust).expect("an image");
    let opened = peer.as_ref().map(Side::open);
    for _ in 0..repetitions {
        least(&mut costs.lookups[0], time(n, || {
            questions.names.iter().zip(&questions.answers).for_each(|(name, &id)| assert_eq!(i64::from(archive::to_id(&ours, name.as_bytes()).id), id));
        }));
        least(&mut costs.lookups[1], time(n, || {
            questions.names.iter().zip(&questions.answers).for_each(|(name, &id)| assert_eq!(black_box(&db).to_id(name).map(i64::from), Some(id)));
        }));
        if let Some(opened) = &opened {
            least(&mut costs.lookups[2], time(n, || opened.ask(&questions)));
        }
    }
    eprintln!("picture: {n} names: lookups {:?}, builds {:?}", costs.lookups, costs.builds);
    costs
}

fn series(costs: &[(usize, Costs)], of: impl Fn(&Costs) -> &[Option<f64>; 3], names: [&'static str; 3]) -> Vec<Series> {
    let side = |i: usize| costs.iter().filter_map(|(n, costs)| of(costs)[i].map(|cost| (*n, cost))).collect::<Vec<_>>();
    (0..3).map(|i| Series { name: names[i], costs: side(i) }).filter(|series| !series.costs.is_empty()).collect()
}

fn main() {
    let numbers = [(256, 3000), (1 << 10, 1000), (1 << 12, 400), (1 << 14, 100), (1 << 16, 30), (1 << 18, 12), (1 << 20, 7)];
    let costs: Vec<(usize, Costs)> = numbers.into_iter().map(|(n, repetitions)| (n, measure(n, repetitions))).collect();
    let lookups = series(&costs, |costs| &costs.lookups, ["Lithwennog", "the Rust", "tinycdb"]);
    let builds = series(&costs, |costs| &costs.builds, ["Lithwennog, one call", "the Rust", "tinycdb, into a file"]);
    print!("{}", chart::svg(&[
        Panel { title: "Looking up a present name", series: lookups },
        Panel { title: "Building, for each name", series: builds },
    ]));
}

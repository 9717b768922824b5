// What a user would pick instead: tinycdb, LMDB and SQLite beside ours, where their libraries are installed. The same names in the
// same order, built into a file in the folder for temporary files and asked there; bench/peers/ has each library's side. All go
// through the same calls and take turns, the best of several counts, and each answer is checked.
mod names;
mod side;
#[allow(dead_code)]
mod table;

use names::{drawn, mixed, Names};
use side::{List, Opened, Questions, Side};
use std::fs;
use std::ptr;
use table::time;

const LENGTH: usize = 9;
const ABSENT: i64 = -1;

fn sides() -> Vec<Side> {
    let libraries = [
        ("Ours", "", peer!(ours)),
        ("tinycdb", "libcdb-dev", peer!(tinycdb)),
        ("LMDB", "liblmdb-dev", peer!(lmdb)),
        ("SQLite", "libsqlite3-dev", peer!(sqlite)),
    ];
    let mut sides = vec![];
    for (name, package, peer) in libraries {
        let file = std::env::temp_dir().join(format!("cqdb-peers-{}-{name}", std::process::id()));
        match peer {
            Some(peer) => sides.push(Side { name, peer, file }),
            None => eprintln!("peers: {name} is left out: its library is not installed (Debian: {package})"),
        }
    }
    sides
}

// The least time of each side in several rounds, in which they take turns; nothing where a side has none.
fn turns<T>(repetitions: usize, sides: &[T], mut run: impl FnMut(&T) -> Option<f64>) -> Vec<Option<f64>> {
    let mut least = vec![None; sides.len()];
    for _ in 0..repetitions {
        for (least, side) in least.iter_mut().zip(sides) {
            *least = run(side).map(|time| least.map_or(time, |before: f64| before.min(time)));
        }
    }
    least
}

fn row(what: &str, n: usize, cells: Vec<Option<f64>>, unit: &str) {
    let shown = |cell: &Option<f64>| cell.map_or(String::new(), |cell| format!("{cell:.1}{unit}"));
    let cells: Vec<String> = cells.iter().map(shown).collect();
    println!("| {what}, {n} names | {} |", cells.join(" | "));
}

// Both ways to build into a file, which is asked for all names afterwards.
fn building(sides: &[Side], list: &List, hits: &Questions, (adds, inserts): (usize, usize)) {
    let added = turns(adds, sides, |side| side.peer.add.map(|add| side.build(add, list)));
    sides.iter().filter(|side| side.peer.add.is_some()).for_each(|side| side.open().ask(hits));
    row("build into a file, repeats not looked for", list.n, added, " ns");
    let inserted = turns(inserts, sides, |side| Some(side.build(side.peer.insert, list)));
    sides.iter().for_each(|side| side.open().ask(hits));
    row("build into a file, repeats refused", list.n, inserted, " ns");
}

// Ours without a file; the others have no such build.
fn in_memory(sides: &[Side], list: &List, repetitions: usize) {
    let ours = sides[0].peer;
    let ways = [("single puts, repeats on", ours.add.expect("single puts")), ("one call, repeats off", ours.insert)];
    for (what, build) in ways {
        // SAFETY: our builds take a null path, and the list's pointers are those of slices that outlive the call.
        let run = || assert_eq!(unsafe { build(ptr::null(), list) }, 0, "ours builds");
        let times = turns(repetitions, sides, |side| ptr::eq(side.peer, ours).then(|| time(list.n, run)));
        row(&format!("build in memory, {what}"), list.n, times, " ns");
    }
}

fn lookups(sides: &[Side], what: &str, questions: &Questions, repetitions: usize) {
    let n = questions.names.len();
    let opened: Vec<Opened> = sides.iter().map(Side::open).collect();
    row(what, n, turns(repetitions, &opened, |side| Some(time(n, || side.ask(questions)))), " ns");
}

fn compare(sides: &[Side], counting: bool, n: usize, (adds, inserts, asks): (usize, usize, usize)) {
    // Names that are put, and as many that are not.
    let [put, absent] = match counting {
        true => ['p', 'm'].map(|letter| Names::new(letter, LENGTH, 0..n)),
        false => [0, n].map(|before| Names::of(LENGTH, drawn(1).skip(before).take(n))),
    };
    let text = put.all().concat();
    let list = List { bytes: text.as_ptr(), length: LENGTH, n };
    // Those of the questions lie in the order of the questions.
    let mix = |names: &[&str]| Names::of(LENGTH, mixed(n).map(|i| names[i].to_string()));
    let [put, absent] = [mix(&put.all()), mix(&absent.all())];
    let hits = Questions { names: put.all(), answers: mixed(n).map(|i| i as i64).collect() };
    let misses = Questions { names: absent.all(), answers: vec![ABSENT; n] };

    building(sides, &list, &hits, (adds, inserts));
    in_memory(sides, &list, adds);
    lookups(sides, "hit", &hits, asks);
    lookups(sides, "miss", &misses, asks);
    let size = |side: &Side| Some(fs::metadata(&side.file).expect("a file").len() as f64 / n as f64);
    row("bytes of the file", n, turns(1, sides, size), "");
}

fn main() {
    let kind = std::env::args().nth(1);
    let counting = kind.as_deref() == Some("counting");
    if kind.is_some() && !counting {
        eprintln!("peers: 'peers' draws names, 'peers counting' counts them up; there is nothing else");
        std::process::exit(2);
    }
    let sides = sides();
    let heads: Vec<&str> = sides.iter().map(|side| side.name).collect();
    println!("| What, for each name | {} |", heads.join(" | "));
    println!("|---|{}", "---|".repeat(sides.len()));
    compare(&sides, counting, 4_096, (300, 100, 1_000));
    compare(&sides, counting, 1_000_000, (15, 3, 9));
}

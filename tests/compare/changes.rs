// Two images compared through the archive, held to the rule told once more in plain Rust: both images are named id by id, and an old
// name is looked up in the new image. Pairs of an image and its changed list, of damaged copies, of images that have nothing to do
// with each other, and of any bytes.   changes [PAIRS]
mod archive;
mod damage;
mod plain;
mod rules;
mod seed;
mod tally;

use archive::{ChangeAnswer, MovedAnswer, StrAnswer};
use plain::Put;
use seed::Random;
use tally::Tally;

const PAIRS: usize = 60_000;

// "A name against another, a name against nothing".
fn named(image: &[u8], id: u32) -> Option<&[u8]> {
    rules::to_str(image, id).map(|(start, len)| &image[start..start + len])
}

fn place(image: &[u8], id: u32) -> StrAnswer {
    let (found, (start, len)) = rules::to_str(image, id).map_or((0, (0, 0)), |place| (1, place));
    StrAnswer { found, len: len as u32, start: start as u64 }
}

fn upper(old: &[u8], new: &[u8]) -> u64 {
    u64::from(rules::upper_hint(old, 0).max(rules::upper_hint(new, 0)))
}

// The ids that the two name differently, of all below the larger of the two upper hints.
fn changed(old: &[u8], new: &[u8]) -> Vec<u32> {
    (0..upper(old, new)).map(|id| id as u32).filter(|&id| named(old, id) != named(new, id)).collect()
}

fn answer(old: &[u8], new: &[u8], id: Option<u32>) -> ChangeAnswer {
    let nothing = StrAnswer { found: 0, len: 0, start: 0 };
    match id {
        Some(id) => ChangeAnswer { found: 1, id, before: place(old, id), after: place(new, id) },
        None => ChangeAnswer { found: 0, id: 0, before: nothing, after: nothing },
    }
}

// "Whether this id's old name is now another id's name (looked up in the new image), with that id".
fn moved(old: &[u8], new: &[u8], id: u32) -> MovedAnswer {
    match named(old, id).and_then(|name| rules::to_id_by(plain::hash, new, name).id).filter(|&other| other != id) {
        Some(other) => MovedAnswer { found: 1, id: other },
        None => MovedAnswer { found: 0, id: 0 },
    }
}

#[derive(Default)]
struct Run {
    tally: Tally,
    // Pairs with changes and without; changes of two names, of a name and nothing; moved names.
    with: u64,
    without: u64,
    renamed: u64,
    one_sided: u64,
    moved: u64,
}

impl Run {
    // All changes by repeated calls, both ways; then calls from any id, and where the old names went.
    fn pair(&mut self, random: &mut Random, old: &[u8], new: &[u8]) {
        let ids = changed(old, new);
        let mut from = 0;
        for wanted in ids.iter().map(|&id| Some(id)).chain([None]) {
            let given = archive::next_change(old, new, from);
            self.tally.rule(given, answer(old, new, wanted), || format!("from {from}"));
            let back = archive::next_change(new, old, from);
            self.tally.rule(back, answer(new, old, wanted), || format!("from {from}, the images exchanged"));
            from = wanted.map_or(from, |id| u64::from(id) + 1);
        }
        for from in
            [upper(old, new), random.below(upper(old, new) as usize + 2) as u64, 1 << 32, u64::MAX, random.next()]
        {
            let wanted = ids.iter().copied().find(|&id| u64::from(id) >= from);
            self.tally.rule(archive::next_change(old, new, from), answer(old, new, wanted), || format!("from {from}"));
        }
        for id in ids.iter().copied().take(40).chain([0, random.below(20) as u32, u32::MAX, random.word()]) {
            let given = archive::moved(old, new, id);
            self.tally.rule(given, moved(old, new, id), || format!("where the name of {id} went"));
            self.moved += u64::from(given.found);
        }
        self.count(old, new, &ids);
    }

    fn count(&mut self, old: &[u8], new: &[u8], ids: &[u32]) {
        if ids.is_empty() {
            self.without += 1;
        } else {
            self.with += 1;
        }
        let both = ids.iter().filter(|&&id| named(old, id).is_some() && named(new, id).is_some()).count();
        self.renamed += both as u64;
        self.one_sided += (ids.len() - both) as u64;
    }
}

// A name of up to seven letters, most of them of a few: so names are repeated, and many have one length.
fn name(random: &mut Random) -> Vec<u8> {
    let letters = random.pick(&[2, 2, 3, 26]);
    (0..random.pick(&[0, 1, 2, 3, 3, 3, 7])).map(|_| b'a' + random.below(letters) as u8).collect()
}

// Up to 24 puts; ids and names may be repeated, and ids have gaps.
fn list(random: &mut Random) -> Vec<Put> {
    let n = random.below(25);
    let span = random.pick(&[n + 1, 2 * n + 1, 200]);
    (0..n).map(|i| (name(random), if random.once_in(2) { i } else { random.below(span) } as u32)).collect()
}

// The list of a later week: some names changed in a byte, exchanged, taken away or added; some ids taken by other names.
fn later(random: &mut Random, mut puts: Vec<Put>) -> Vec<Put> {
    for _ in 0..random.below(5) {
        let n = puts.len();
        if n == 0 {
            break;
        }
        let (i, j) = (random.below(n), random.below(n));
        match random.below(6) {
            0 if !puts[i].0.is_empty() => {
                let k = random.below(puts[i].0.len());
                puts[i].0[k] ^= 1 << random.below(8);
            }
            1 => {
                let name = std::mem::take(&mut puts[i].0);
                puts[i].0 = std::mem::replace(&mut puts[j].0, name);
            }
            2 => drop(puts.swap_remove(i)),
            3 => puts[i].1 = random.below(2 * n + 2) as u32,
            4 => puts.push((name(random), random.below(3 * n + 2) as u32)),
            _ => puts[i].0 = name(random),
        }
    }
    puts
}

fn pair(random: &mut Random, turn: usize) -> (Vec<u8>, Vec<u8>) {
    let puts = list(random);
    let next = if random.once_in(8) { list(random) } else { later(random, puts.clone()) };
    let old = plain::image(random.once_in(12), &puts);
    let new = plain::image(random.once_in(12), &next);
    let (kind, other) = (turn % damage::KINDS, random.below(damage::KINDS));
    match random.below(8) {
        0 => (damage::copy(random, &old, kind), new),
        1 => (old, damage::copy(random, &new, kind)),
        2 => (old.clone(), damage::copy(random, &old, kind)),
        3 => (damage::copy(random, &old, kind), damage::copy(random, &new, other)),
        4 if random.once_in(4) => {
            let n = random.pick(&[0, 1, 2_071, 2_072, 4_000]);
            (random.bytes(n), new)
        }
        _ => (old, new),
    }
}

fn main() {
    let pairs = std::env::args().nth(1).map_or(PAIRS, |text| text.parse().expect("a number of pairs"));
    let mut random = Random::new();
    println!("changes: seed {}", random.seed);
    let mut run = Run::default();
    for turn in 0..pairs {
        let (old, new) = pair(&mut random, turn);
        run.pair(&mut random, &old, &new);
        if turn % 16 == 0 {
            run.pair(&mut random, &old, &old.clone());
        }
    }
    println!(
        "changes: {} pairs with changes, {} without: {} ids with another name, {} with a name in one image only; {} names moved",
        run.with, run.without, run.renamed, run.one_sided, run.moved
    );
    assert!(
        run.with > 0 && run.without > 0 && run.renamed > 0 && run.one_sided > 0 && run.moved > 0,
        "a case was not met"
    );
    println!("changes: {} answers compared with the rule: {} different", run.tally.rule, run.tally.different);
    std::process::exit(i32::from(run.tally.different > 0));
}

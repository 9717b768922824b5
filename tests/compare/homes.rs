// The home check, compared live with the rule of 02 (vi): images with renewed prisms, three and more ids to a name; the same
// with full tables; and damaged copies of both.   homes [COPIES]
mod archive;
mod damage;
mod names;
mod original;
mod rules;
mod seed;
mod tally;

use names::Names;
use original::Put;
use seed::Random;
use std::collections::HashMap;
use tally::Tally;

const COPIES: usize = 50_400;
const COPIES_OF_ONE: usize = 3 * damage::KINDS;

// A few names, most of them of one table and one first bucket, each under three to eight ids. Rarely an id is put twice.
fn puts(names: &Names, random: &mut Random) -> Vec<Put> {
    let most = 1 + random.below(4);
    let mut made = names.sharing(random, most);
    let (a, b) = names.pair(random);
    made.extend([a, b, names::any(random)]);
    let times: Vec<usize> = made.iter().map(|_| 3 + random.below(6)).collect();
    let mut left: Vec<usize> = (0..made.len()).flat_map(|i| vec![i; times[i]]).collect();
    let mut puts = Vec::new();
    while !left.is_empty() {
        let name = made[left.swap_remove(random.below(left.len()))].clone();
        let id = if random.once_in(20) { random.below(puts.len() + 1) } else { puts.len() };
        puts.push((name, id as u32));
    }
    puts
}

// The entries of a table, offset and hash, in put order.
fn entries(image: &[u8], offset: usize, n: usize) -> Vec<(u32, u32)> {
    let buckets = (0..n).map(|k| offset + 8 * k);
    let mut used: Vec<_> = buckets.map(|at| (rules::word(image, at + 4), rules::word(image, at))).collect();
    used.retain(|entry| entry.0 > 0);
    used.sort_unstable();
    used
}

// Each table as if it had been made with as many buckets as it has entries: the same entries in the same order, none empty.
fn fill(image: &mut [u8]) {
    for (t, _) in damage::tables(image) {
        let (offset, n) = rules::table(image, t);
        let (offset, n) = (offset as usize, n as usize);
        let used = entries(image, offset, n);
        image[offset..offset + 8 * n].fill(0);
        let n = used.len();
        image[28 + 8 * t..][..4].copy_from_slice(&(n as u32).to_le_bytes());
        for (at, hash) in used {
            let mut search = (0..n).map(|k| offset + 8 * ((hash as usize / 256 + k) % n));
            let place = search.find(|place| rules::word(image, place + 4) == 0).expect("an empty bucket");
            image[place..place + 4].copy_from_slice(&hash.to_le_bytes());
            image[place + 4..place + 8].copy_from_slice(&at.to_le_bytes());
        }
    }
}

struct Run {
    tally: Tally,
    // Ids that are home though their name finds another; ids that have a name and are not home.
    renewed: u64,
    away: u64,
}

impl Run {
    fn ask(&mut self, image: &[u8], ids: u32) {
        for id in (0..ids).chain([u32::MAX]) {
            let given = archive::home(image, id);
            self.tally.rule(given, u32::from(rules::home(image, id)), || format!("home {id}"));
            let Some(name) = archive::named(image, id) else { continue };
            let found = archive::found_id(image, name);
            self.tally.rule(given >= u32::from(found == Some(id)), true, || format!("{id} was home"));
            self.renewed += u64::from(given == 1 && found != Some(id));
            self.away += u64::from(given == 0);
        }
    }

    // In an image of puts, and in one with full tables, every id that has a name is home.
    fn all_home(&mut self, image: &[u8], puts: &[Put]) {
        let last: HashMap<u32, &[u8]> = puts.iter().map(|(name, id)| (*id, &name[..])).collect();
        for (id, name) in last {
            self.tally
                .rule((archive::named(image, id), archive::home(image, id)), (Some(name), 1), || format!("home {id}"));
        }
    }
}

fn main() {
    let copies = std::env::args().nth(1).map_or(COPIES, |text| text.parse().expect("a number of copies"));
    let mut random = Random::new();
    println!("homes: seed {}", random.seed);
    let names = Names::new(&mut random);
    let mut run = Run { tally: Tally::default(), renewed: 0, away: 0 };
    let bases = copies.div_ceil(COPIES_OF_ONE);
    for base in 0..bases {
        let puts = puts(&names, &mut random);
        let mut image = original::image(false, &puts);
        if base % 2 == 1 {
            fill(&mut image);
        }
        run.all_home(&image, &puts);
        run.ask(&image, puts.len() as u32);
        for i in 0..COPIES_OF_ONE {
            run.ask(&damage::copy(&mut random, &image, i % damage::KINDS), puts.len() as u32);
        }
    }
    println!("homes: {bases} images, every second one with full tables, and {} damaged copies", bases * COPIES_OF_ONE);
    println!("homes: {} ids home whose name finds another, {} named and not home", run.renewed, run.away);
    let both = run.renewed > 0 && run.away > 0;
    run.tally.rule(both, true, || "both kinds of ids".into());
    run.tally.end("homes");
}

// Reading, compared live: the archive, the Rust (where it ends) and 01's rules read the same images, which the Rust made, and
// damaged copies of them.   reader [COPIES]
mod archive;
mod damage;
mod names;
mod original;
mod rules;
mod seed;
mod tally;

use archive::{IdAnswer, OpenAnswer, StrAnswer};
use cqdb::CQDB;
use names::Names;
use original::Put;
use seed::Random;
use tally::Tally;

const COPIES: usize = 60_048;
const COPIES_OF_ONE: usize = 3 * damage::KINDS;

struct Run {
    tally: Tally,
    // Searches that the Rust never ends.
    unending: u64,
    // How often opening gave each refusal, and none.
    refusals: [u64; 9],
    // How often the panel's reading was shorter than the name, and how often the check said no and yes.
    cut: u64,
    agree: [u64; 2],
}

// What is asked of an image and of its copies.
struct Questions {
    names: Vec<Vec<u8>>,
    ids: Vec<u32>,
}

fn questions(names: &Names, random: &mut Random, image: &[u8], puts: &[Put]) -> Questions {
    let mut asked: Vec<Vec<u8>> = puts.iter().take(10).map(|(name, _)| name.clone()).collect();
    for (t, _) in damage::tables(image).into_iter().take(5) {
        asked.push(names.of_table(random, t));
    }
    let (a, b) = names.pair(random);
    asked.extend([a, b, Vec::new(), names::any(random), names::any(random)]);
    let back = rules::back_size(image) as u32;
    let mut ids = vec![0, 1, 2, back.wrapping_sub(1), back, back.wrapping_add(1), u32::MAX, random.word()];
    ids.extend(puts.iter().rev().take(6).map(|put| put.1));
    Questions { names: asked, ids }
}

impl Run {
    fn opening(&mut self, image: &[u8], db: &Result<CQDB, u32>) {
        let given = archive::open(image);
        let theirs = match db {
            Ok(db) => OpenAnswer { refusal: 0, num: db.num() },
            Err(n) => OpenAnswer { refusal: *n, num: 0 },
        };
        let rule = match rules::open(image) {
            Ok(num) => OpenAnswer { refusal: 0, num },
            Err(refusal) => OpenAnswer { refusal, num: 0 },
        };
        self.refusals[given.refusal.min(8) as usize] += 1;
        self.tally.rust(given, theirs, || "opening".into());
        self.tally.rule(given, rule, || "opening".into());
    }

    fn lookup(&mut self, image: &[u8], db: Option<&CQDB>, name: &[u8]) {
        let given = archive::to_id(image, name);
        let rule = rules::to_id(image, name);
        let (found, id) = rule.id.map_or((0, 0), |id| (1, id));
        let want = IdAnswer { found, id, buckets: rule.buckets, offset: rule.offset };
        self.tally.rule(given, want, || format!("lookup of {name:02x?}"));
        let (Some(db), Ok(text)) = (db, std::str::from_utf8(name)) else { return };
        if rule.unending {
            self.unending += 1;
        } else {
            let given = (given.found == 1).then_some(given.id);
            self.tally.rust(given, db.to_id(text), || format!("lookup of {text:?}"));
        }
    }

    fn naming(&mut self, image: &[u8], db: Option<&CQDB>, id: u32) {
        let given = archive::to_str(image, id);
        let want = match rules::to_str(image, id) {
            Some((start, len)) => StrAnswer { found: 1, len: len as u32, start: start as u64 },
            None => StrAnswer { found: 0, len: 0, start: 0 },
        };
        self.tally.rule(given, want, || format!("naming {id}"));
        if let Some(db) = db {
            let given = (given.found == 1).then_some((given.start as usize, given.len as usize));
            self.tally.rust(given, original::place(db, image, id), || format!("naming {id}"));
        }
    }

    // The Rust has no panel's reading. It is asked for the name, which is cut at its first zero byte.
    fn panel(&mut self, image: &[u8], db: Option<&CQDB>, id: u32) {
        let given = archive::panel(image, id);
        let want = match rules::panel(image, id) {
            Some((start, len)) => StrAnswer { found: 1, len: len as u32, start: start as u64 },
            None => StrAnswer { found: 0, len: 0, start: 0 },
        };
        self.tally.rule(given, want, || format!("the panel's reading of {id}"));
        self.cut += u64::from(given.found == 1 && given.len < archive::to_str(image, id).len);
        if let Some(db) = db {
            let given = (given.found == 1).then(|| &image[given.start as usize..][..given.len as usize]);
            let theirs = db.to_str(id).map(|name| name.split(|&b| b == 0).next().expect("a first part"));
            self.tally.rust(given, theirs, || format!("the panel's reading of {id}"));
        }
    }

    // The check of both readings, over all ids below back size.
    fn readings(&mut self, image: &[u8]) {
        let given = archive::readings_agree(image);
        self.agree[usize::from(given == 1)] += 1;
        self.tally.rule(given, u32::from(rules::readings_agree(image)), || "the check of both readings".into());
    }

    // The Rust has no home check. It is asked for the name, and for that name's id: an id that is found is home, and where
    // nothing is found, none is. Where another id is found, the rules alone decide (02 (vi)).
    fn home(&mut self, image: &[u8], db: Option<&CQDB>, id: u32) {
        let given = archive::home(image, id);
        self.tally.rule(given, u32::from(rules::home(image, id)), || format!("home {id}"));
        let Some(db) = db else { return };
        let text = match db.to_str(id) {
            Some(name) => std::str::from_utf8(name).ok().filter(|text| !rules::to_id(image, text.as_bytes()).unending),
            None => return self.tally.rust(given, 0, || format!("home {id}")),
        };
        match text.map(|text| db.to_id(text)) {
            Some(Some(found)) if found == id => self.tally.rust(given, 1, || format!("home {id}")),
            Some(None) => self.tally.rust(given, 0, || format!("home {id}")),
            _ => {}
        }
    }

    // A walk from id 0 with the hint before each step, to its end and one step more.
    fn walk(&mut self, image: &[u8], db: Option<&CQDB>) {
        let mut theirs = db.map(|db| db.iter());
        for next in 0.. {
            let hint = archive::size_hint(image, next);
            let name = archive::named(image, next);
            self.tally.rule(hint, rules::upper_hint(image, next), || format!("hint before {next}"));
            if let Some(iter) = &mut theirs {
                self.tally.rust((0, Some(hint as usize)), iter.size_hint(), || format!("hint before {next}"));
                let step = iter.next().map(|item| item.expect("an item"));
                let step = step.map(|(id, name)| (id, original::place_of(image, name)));
                let given = name.map(|name| (next, original::place_of(image, name)));
                self.tally.rust(given, step, || format!("step {next} of a walk"));
            }
            if name.is_none() {
                let again = theirs.and_then(|mut iter| iter.next());
                return self.tally.rule(again.is_none(), true, || "a step after the end".into());
            }
        }
    }

    fn image(&mut self, image: &[u8], asked: &Questions) {
        let db = original::open(image);
        self.opening(image, &db);
        let db = db.ok();
        for name in &asked.names {
            self.lookup(image, db.as_ref(), name);
        }
        for &id in &asked.ids {
            self.naming(image, db.as_ref(), id);
            self.panel(image, db.as_ref(), id);
            self.home(image, db.as_ref(), id);
            let hint = rules::upper_hint(image, id);
            self.tally.rule(archive::size_hint(image, id), hint, || format!("hint before {id}"));
        }
        self.readings(image);
        self.walk(image, db.as_ref());
    }
}

fn main() {
    let copies = std::env::args().nth(1).map_or(COPIES, |text| text.parse().expect("a number of copies"));
    let mut random = Random::new();
    println!("reader: seed {}", random.seed);
    let names = Names::new(&mut random);
    let mut run = Run { tally: Tally::default(), unending: 0, refusals: [0; 9], cut: 0, agree: [0; 2] };
    let bases = copies.div_ceil(COPIES_OF_ONE);
    for base in 0..bases {
        let most = if base % 50 == 49 { 600 } else { 30 };
        let puts = names.list(&mut random, most);
        let image = original::image(random.once_in(5), &puts);
        let asked = questions(&names, &mut random, &image, &puts);
        run.image(&image, &asked);
        for i in 0..COPIES_OF_ONE {
            run.image(&damage::copy(&mut random, &image, i % damage::KINDS), &asked);
        }
    }
    println!("reader: {bases} images and {} damaged copies; {} searches that the Rust never ends", bases * COPIES_OF_ONE, run.unending);
    let [opened, r1, _, _, _, r5, r6, r7, r8] = run.refusals;
    println!("reader: opened {opened}; refused with 1: {r1}, 5: {r5}, 6: {r6}, 7: {r7}, 8: {r8}");
    let [no, yes] = run.agree;
    println!("reader: {} readings of the panel shorter than the name; both readings agree on all ids: yes {yes}, no {no}", run.cut);
    run.tally.end("reader");
}

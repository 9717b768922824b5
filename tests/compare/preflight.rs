// May this report leave? The answers of the archive, held to the ten questions told once more in plain Rust: an image is the list of
// puts that makes it (02 (ix)), and an id's name is that of its last put. Reports over random pairs of catalogues, with exchanged
// names, cycles of three, renames, renewed, retired and removed prisms, names used again; damaged, one-way and empty images and those
// of another harbour; sheets with an id twice, cut and longer. Then windows that hold two dates.   preflight [REPORTS]
mod archive;
mod damage;
mod made;
mod plain;
mod rules;
mod seed;
mod tally;

use archive::{Date, PreflightAnswer, PreflightDatesAnswer, Window};
use made::made;
use plain::Put;
use seed::Random;
use std::collections::BTreeMap;
use tally::Tally;

const REPORTS: usize = 300_000;

const YES: PreflightAnswer =
    PreflightAnswer { question: 0, refusal: 0, id: 0, place: 0, other: 0, compared: 0, added: 0, unsighted: 0 };

type Names = BTreeMap<u32, Vec<u8>>;

// The names of the ids, where the image is canonical and two-way.
fn names(image: &[u8]) -> Option<Names> {
    let puts = made(image)?;
    (image[8..12] == [0; 4]).then(|| puts.into_iter().map(|(name, id)| (id, name)).collect())
}

// References, walls and retired prisms, or 19 for too few bytes and 20 for left-over ones.
fn lists(sheet: &[u8]) -> Result<[Vec<u32>; 3], u32> {
    let mut rest = sheet;
    let mut lists = [vec![], vec![], vec![]];
    for list in &mut lists {
        let (count, behind) = rest.split_first_chunk::<2>().ok_or(19u32)?;
        let size = 4 * usize::from(u16::from_le_bytes(*count));
        let ids = behind.get(..size).ok_or(19u32)?;
        *list = ids.chunks(4).map(|id| u32::from_le_bytes(id.try_into().expect("four bytes"))).collect();
        rest = &behind[size..];
    }
    if rest.is_empty() {
        Ok(lists)
    } else {
        Err(20)
    }
}

struct Report {
    old: Vec<u8>,
    new: Vec<u8>,
    sheet: Vec<u8>,
    round: Vec<u32>,
    accepted: Vec<u32>,
}

impl Report {
    // Questions 1 to 6, and how many references and walls were not sighted.
    fn first(&self) -> Result<(Names, u64), PreflightAnswer> {
        let no = |question| PreflightAnswer { question, ..YES };
        let new = names(&self.new).ok_or(no(1))?;
        let [references, walls, retired] = lists(&self.sheet).map_err(|refusal| PreflightAnswer { refusal, ..no(2) })?;
        let times = |list: &[u32], id: u32| list.iter().filter(|&&other| other == id).count();
        let listed = |id| times(&references, id) + times(&walls, id) == 1 && times(&retired, id) == 0;
        let at = |question, place: usize| PreflightAnswer { place: place as u64, ..no(question) };
        if let Some(place) = self.round.iter().position(|&id| !listed(id)) {
            return Err(at(3, place));
        }
        if self.round.is_empty() {
            return Err(no(4));
        }
        if let Some(place) = self.round.iter().position(|id| new.get(id).is_none_or(|name| name.is_empty())) {
            return Err(at(5, place));
        }
        for (place, id) in self.round.iter().enumerate() {
            if let Some(other) = self.round.iter().position(|with| with != id && new[with] == new[id]) {
                return Err(PreflightAnswer { other: other as u64, ..at(6, place) });
            }
        }
        let unsighted = references.iter().chain(&walls).filter(|id| !self.round.contains(id)).count();
        Ok((new, unsighted as u64))
    }

    // Questions 7 to 10, and the counts of a yes.
    fn second(&self, new: &Names, unsighted: u64) -> Result<PreflightAnswer, PreflightAnswer> {
        let no = |question| PreflightAnswer { question, ..YES };
        let old = names(&self.old).ok_or(no(7))?;
        if !old.iter().any(|(id, name)| new.get(id) == Some(name)) {
            return Err(no(8));
        }
        let lost = |id: &u32| old.get(id).is_some_and(|name| new.get(id) != Some(name));
        if let Some(place) = self.round.iter().position(|id| lost(id) && !self.accepted.contains(id)) {
            return Err(PreflightAnswer { place: place as u64, ..no(9) });
        }
        for (id, name) in old.iter().filter(|(id, _)| lost(id)) {
            if let Some(place) = self.round.iter().position(|taker| new[taker] == *name) {
                return Err(PreflightAnswer { id: *id, place: place as u64, ..no(10) });
            }
        }
        let compared = self.round.iter().filter(|id| old.contains_key(id)).count() as u64;
        Ok(PreflightAnswer { compared, added: self.round.len() as u64 - compared, unsighted, ..YES })
    }

    fn answer(&self) -> PreflightAnswer {
        let all = self.first().and_then(|(new, unsighted)| self.second(&new, unsighted));
        all.unwrap_or_else(|no| no)
    }

    fn answer_first(&self) -> PreflightAnswer {
        self.first().map_or_else(|no| no, |(_, unsighted)| PreflightAnswer { unsighted, ..YES })
    }
}

#[derive(Default)]
struct Run {
    tally: Tally,
    // The answers by their question, of reports with a last one and of first ones.
    answers: [u64; 11],
    firsts: [u64; 7],
    // Refusals of the sheet; a yes with an id that is renewed, one with an accepted rename, one over the same image.
    refusals: [u64; 2],
    renewed: u64,
    renamed: u64,
    same: u64,
    damaged_old: u64,
}

impl Run {
    fn hold(&mut self, report: &Report) {
        let Report { old, new, sheet, round, accepted } = report;
        let what = || format!("round {round:?}, accepted {accepted:?}, sheet {sheet:?}");
        let given = archive::preflight(old, new, sheet, round, accepted);
        self.tally.rule(given, report.answer(), what);
        let first = archive::preflight_first(new, sheet, round);
        self.tally.rule(first, report.answer_first(), what);
        self.answers[(given.question as usize).min(10)] += 1;
        self.firsts[(first.question as usize).min(6)] += 1;
        if given.question == 2 {
            self.refusals[given.refusal as usize - 19] += 1;
        }
        if given.question == 0 {
            self.count(report);
        }
    }

    fn count(&mut self, report: &Report) {
        let (Some(old), Some(new)) = (names(&report.old), names(&report.new)) else { return };
        let twice = |id: &u32| new.values().filter(|name| **name == new[id]).count() > 1;
        self.renewed += u64::from(report.round.iter().any(twice));
        self.renamed += u64::from(report.round.iter().any(|id| old.get(id).is_some_and(|name| *name != new[id])));
        self.same += u64::from(report.old == report.new);
    }
}

fn name(random: &mut Random) -> Vec<u8> {
    let letter = b'a' + random.below(12) as u8;
    match random.below(30) {
        0 => vec![],
        1..=3 => vec![letter; 2],
        _ => vec![letter, b'0' + random.below(10) as u8],
    }
}

// Some prisms with different ids; now and then two with one name, or an id put again.
fn catalogue(random: &mut Random) -> Vec<Put> {
    let n = random.pick(&[0, 1, 2, 3, 5, 8, 12]);
    let step = random.pick(&[1, 1, 2, 5]);
    let mut puts: Vec<Put> = vec![];
    for i in 0..n {
        let fresh = loop {
            let name = name(random);
            if random.once_in(40) || puts.iter().all(|put| put.0 != name) {
                break name;
            }
        };
        let id = if random.once_in(40) { random.below(n) * step } else { i * step };
        puts.push((fresh, id as u32));
    }
    puts
}

// The catalogue of a later week, and the ids that it names on purpose otherwise.
fn later(random: &mut Random, mut puts: Vec<Put>) -> (Vec<Put>, Vec<u32>) {
    let mut accepted = vec![];
    for _ in 0..random.pick(&[0, 1, 1, 2, 3]) {
        let n = puts.len();
        if n < 3 {
            break;
        }
        let (i, j, k) = (random.below(n), random.below(n), random.below(n));
        let free = puts.iter().map(|put| put.1 + 1).max().unwrap_or(0);
        match random.below(9) {
            0 => exchange(&mut puts, i, j),
            1 => {
                exchange(&mut puts, i, j);
                exchange(&mut puts, j, k);
            }
            2 => puts[i].0 = name(random),
            3 => puts.push((puts[i].0.clone(), free)),
            4 => drop(puts.remove(i)),
            5 => puts.push((name(random), free)),
            6 => {
                let taken = puts.remove(i).0;
                puts.push((taken, free));
            }
            7 => puts[i].0 = puts[j].0.clone(),
            _ => {
                puts[i].0 = name(random);
                accepted.push(puts[i].1);
            }
        }
    }
    if random.once_in(3) {
        accepted.extend(puts.iter().map(|put| put.1).filter(|_| random.once_in(2)));
    }
    (puts, accepted)
}

fn exchange(puts: &mut [Put], i: usize, j: usize) {
    let name = std::mem::take(&mut puts[i].0);
    puts[i].0 = std::mem::replace(&mut puts[j].0, name);
}

// A sheet of the ids, most of them walls, and a round of most that it lists. Some of them not as they should be.
fn round(random: &mut Random, puts: &[Put]) -> (Vec<u8>, Vec<u32>) {
    let mut lists: [Vec<u32>; 3] = Default::default();
    for (_, id) in puts {
        let places = if random.once_in(60) { 2 } else { usize::from(!random.once_in(30)) };
        for _ in 0..places {
            let list = random.pick(&[0, 1, 1, 1, 1, 2]);
            if places > 1 || lists.iter().all(|list| !list.contains(id)) {
                lists[list].push(*id);
            }
        }
    }
    let mut ids: Vec<u32> = lists[..2].concat();
    if random.once_in(25) {
        ids.extend(&lists[2]);
    }
    if random.once_in(40) {
        ids.push(random.pick(&[0, 1, 7, 60, u32::MAX]));
    }
    ids.retain(|_| !random.once_in(4));
    let again: Vec<u32> = ids.iter().copied().filter(|_| random.once_in(6)).collect();
    ids.extend(again);
    let n = ids.len();
    (0..n).for_each(|i| ids.swap(i, random.below(n)));
    if random.once_in(40) {
        ids.clear();
    }
    let mut file = vec![];
    for list in &lists {
        file.extend((list.len() as u16).to_le_bytes());
        list.iter().for_each(|id| file.extend(id.to_le_bytes()));
    }
    match random.below(60) {
        0 => file.truncate(random.below(file.len() + 1)),
        1 => file.push(random.below(3) as u8),
        2 => file[0] ^= 1,
        _ => {}
    }
    (file, ids)
}

// An image that may be one-way, damaged, empty or any bytes.
fn image(random: &mut Random, puts: &[Put], turn: usize) -> (Vec<u8>, bool) {
    let whole = plain::image(random.once_in(25), puts);
    match random.below(25) {
        0 => (damage::copy(random, &whole, turn % damage::KINDS), true),
        1 => {
            let (mut changed, at) = (whole.clone(), random.below(whole.len()));
            changed[at] ^= 1 << random.below(8);
            (changed, true)
        }
        2 if random.once_in(4) => {
            let n = random.pick(&[0, 1, 2_071, 2_072, 3_000]);
            (random.bytes(n), true)
        }
        _ => (whole, false),
    }
}

fn report(run: &mut Run, random: &mut Random, turn: usize) -> Report {
    let puts = catalogue(random);
    let (next, accepted) = if random.once_in(20) { (catalogue(random), vec![]) } else { later(random, puts.clone()) };
    let (new, _) = image(random, &next, turn);
    let (old, damaged) = match random.below(20) {
        0 => (new.clone(), false),
        1 => (plain::image(false, &[]), false),
        _ => image(random, &puts, turn),
    };
    run.damaged_old += u64::from(damaged);
    let of = if random.once_in(10) { &puts } else { &next };
    let (sheet, round) = round(random, of);
    Report { old, new, sheet, round, accepted }
}

// Does the date exist in the years 1900 to 2199, or as an end date on 1 January 2200?
fn exists(date: Date, as_end: bool) -> bool {
    let Date { year, month, day } = date;
    let leap = year % 4 == 0 && year % 100 != 0 || year % 400 == 0;
    let length = match month {
        4 | 6 | 9 | 11 => 30,
        2 => 28 + u8::from(leap),
        1..=12 => 31,
        _ => 0,
    };
    (1900..2200).contains(&year) && (1..=length).contains(&day) || as_end && (year, month, day) == (2200, 1, 1)
}

fn dates_answer(windows: &[Window], round: &[u32], last: Date, date: Date) -> PreflightDatesAnswer {
    let refused = |refusal| PreflightDatesAnswer { question: 0, refusal, place: 0 };
    let order = |date: Date| (date.year, date.month, date.day);
    if !exists(last, false) || !exists(date, false) {
        return refused(22);
    }
    if windows.iter().any(|window| !exists(window.first, false) || !exists(window.end, true)) {
        return refused(22);
    }
    if windows.iter().any(|window| order(window.first) >= order(window.end)) {
        return refused(23);
    }
    let holds = |window: &Window, day: Date| (order(window.first)..order(window.end)).contains(&order(day));
    let both = |id: &u32| windows.iter().any(|window| window.id == *id && holds(window, last) && holds(window, date));
    match round.iter().position(|id| !both(id)) {
        Some(place) => PreflightDatesAnswer { question: 11, refusal: 0, place: place as u64 },
        None => refused(0),
    }
}

fn any_date(random: &mut Random) -> Date {
    let year = random.pick(&[2023, 2024, 2024, 2024, 2025, 1900, 2199]);
    match random.below(120) {
        0 => Date { year: random.pick(&[1899, 2200, 0, u16::MAX]), month: 1, day: 1 },
        1 => Date { year, month: random.pick(&[0, 13, 255]), day: 1 },
        2 => Date { year, month: random.pick(&[2, 4]), day: random.pick(&[0, 29, 31]) },
        _ => Date { year, month: 1 + random.below(12) as u8, day: 1 + random.below(28) as u8 },
    }
}

fn window(random: &mut Random) -> Window {
    let (a, b) = (any_date(random), any_date(random));
    let order = |date: Date| (date.year, date.month, date.day);
    let (first, end) = if order(a) > order(b) && !random.once_in(200) { (b, a) } else { (a, b) };
    let long = random.once_in(3);
    let first = if long { Date { year: 1900, month: 1, day: 1 } } else { first };
    let end = if long || random.once_in(9) { Date { year: 2200, month: 1, day: 1 } } else { end };
    Window { id: random.below(4) as u32, first, end }
}

// Yes, no, 22 and 23.
fn dates(tally: &mut Tally, random: &mut Random, count: usize) -> [u64; 4] {
    let mut met = [0; 4];
    for _ in 0..count {
        let windows: Vec<Window> = (0..random.below(7)).map(|_| window(random)).collect();
        let round: Vec<u32> = (0..random.below(4)).map(|_| random.below(4) as u32).collect();
        let (last, date) = (any_date(random), any_date(random));
        let given = archive::preflight_dates(&windows, &round, last, date);
        let what = || format!("{round:?} from {last:?} to {date:?} by {windows:?}");
        tally.rule(given, dates_answer(&windows, &round, last, date), what);
        met[if given.refusal > 0 { given.refusal as usize - 20 } else { usize::from(given.question > 0) }] += 1;
    }
    met
}

fn main() {
    let reports = std::env::args().nth(1).map_or(REPORTS, |text| text.parse().expect("a number of reports"));
    let mut random = Random::new();
    println!("preflight: seed {}", random.seed);
    let mut run = Run::default();
    for turn in 0..reports {
        let report = report(&mut run, &mut random, turn);
        run.hold(&report);
    }
    let met = dates(&mut run.tally, &mut random, reports / 2);
    let by_question = |answers: &[u64]| {
        let each = answers.iter().enumerate().map(|(question, count)| format!("{question}: {count}"));
        each.collect::<Vec<_>>().join(", ")
    };
    println!("preflight: {reports} reports, {} with damaged old bytes, by answer: {}", run.damaged_old, by_question(&run.answers));
    println!("preflight: as first reports, by answer: {}; sheets with 19 and 20: {:?}", by_question(&run.firsts), run.refusals);
    println!(
        "preflight: of the yes {} with a renewed prism, {} with an accepted rename, {} by one image; dates: yes, no, 22 and 23: {met:?}",
        run.renewed, run.renamed, run.same
    );
    let counts = [run.renewed, run.renamed, run.same, run.damaged_old];
    let all = run.answers.iter().chain(&run.firsts).chain(&run.refusals).chain(&met).chain(&counts);
    assert!(all.into_iter().all(|&count| count > 0), "a case was not met");
    println!("preflight: {} answers compared with the rule: {} different", run.tally.rule, run.tally.different);
    std::process::exit(i32::from(run.tally.different > 0));
}

// Names with a season through the archive, held to 02 (xiv) told once more in plain Rust. Its calendar counts days: a date exists
// when some day has it, and the order of dates is that of their days. First every date of 1899-12-01 to 2200-02-01 and every
// month 0 to 13 with every day 0 to 32 of ten years; then random lists of windows.   season [LISTS]
mod archive;
mod damage;
mod rules;
mod seed;
mod tally;

use std::collections::HashMap;

use archive::{Date, OnAnswer, Window};
use rules::HEAD;
use seed::Random;
use tally::Tally;

const LISTS: usize = 200_000;
const YEARS: [u16; 10] = [1900, 1904, 1999, 2000, 2023, 2024, 2096, 2100, 2199, 2200];

fn date(year: u16, month: u8, day: u8) -> Date {
    Date { year, month, day }
}

// The date of a day, counted from 1970-01-01. Years are taken to begin in March, so that a leap day is the last of its year: 400
// years have 146,097 days, and five months from March or August on have 153.
fn date_of(day: i64) -> Date {
    let since = day + 719_468;
    let (era, of_era) = (since.div_euclid(146_097), since.rem_euclid(146_097));
    let year = (of_era - of_era / 1_460 + of_era / 36_524 - of_era / 146_096) / 365;
    let of_year = of_era - (365 * year + year / 4 - year / 100);
    let month = (5 * of_year + 2) / 153;
    let from_march = month < 10;
    let day = of_year - (153 * month + 2) / 5 + 1;
    let year = year + 400 * era + i64::from(!from_march);
    date(year as u16, (if from_march { month + 3 } else { month - 9 }) as u8, day as u8)
}

// The days of 1899-12-01, 1900-01-01, 2200-01-01 and 2200-02-01.
const START: i64 = -25_598;
const FIRST: i64 = -25_567;
const PAST: i64 = 84_006;
const END: i64 = 84_037;

struct Calendar {
    days: HashMap<(u16, u8, u8), i64>,
}

impl Calendar {
    fn new() -> Calendar {
        let numbers = |d: Date| (d.year, d.month, d.day);
        let days: HashMap<_, _> = (START..=END).map(|day| (numbers(date_of(day)), day)).collect();
        assert_eq!(days.len() as i64, END - START + 1, "no two days have one date");
        let bounds = [START, FIRST, 0, PAST, END].map(|day| numbers(date_of(day)));
        assert_eq!(bounds, [(1899, 12, 1), (1900, 1, 1), (1970, 1, 1), (2200, 1, 1), (2200, 2, 1)]);
        Calendar { days }
    }

    // "Years 1900 to 2199".
    fn day(&self, d: Date) -> Option<i64> {
        self.days.get(&(d.year, d.month, d.day)).copied().filter(|day| (FIRST..PAST).contains(day))
    }

    // "For an end date also 1 January 2200".
    fn end(&self, d: Date) -> Option<i64> {
        self.day(d).or((d == date(2200, 1, 1)).then_some(PAST))
    }

    // The refusals in 02's order, then "its name exactly when it has one and some window of that id holds the date".
    fn rule(&self, image: &[u8], id: u32, asked: Date, windows: &[Window]) -> OnAnswer {
        let refused = |refusal| OnAnswer { refusal, found: 0, len: 0, start: 0 };
        let Some(asked) = self.day(asked) else { return refused(22) };
        let spans: Option<Vec<_>> =
            windows.iter().map(|w| Some((w.id, self.day(w.first)?, self.end(w.end)?))).collect();
        let Some(spans) = spans else { return refused(22) };
        if spans.iter().any(|&(_, first, end)| first >= end) {
            return refused(23);
        }
        let held = spans.iter().any(|&(of, first, end)| of == id && (first..end).contains(&asked));
        match rules::to_str(image, id).filter(|_| held) {
            Some((start, len)) => OnAnswer { refusal: 0, found: 1, len: len as u32, start: start as u64 },
            None => refused(0),
        }
    }
}

struct Run {
    tally: Tally,
    calendar: Calendar,
    // Answers: a name, nothing, 22, 23.
    answers: [u64; 4],
}

impl Run {
    fn hold(&mut self, image: &[u8], id: u32, asked: Date, windows: &[Window]) -> OnAnswer {
        let answer = archive::name_on(image, id, asked, windows);
        let wanted = self.calendar.rule(image, id, asked, windows);
        self.tally.rule(answer, wanted, || format!("id {id} on {asked:?} by {windows:?}"));
        self.answers[if answer.refusal > 0 { answer.refusal as usize - 20 } else { 1 - answer.found as usize }] += 1;
        answer
    }

    // A date as the one asked about, as a first date and as an end date.
    fn exists(&mut self, image: &[u8], d: Date) {
        let (first, end, now) = (date(1900, 1, 1), date(2200, 1, 1), date(2000, 1, 1));
        self.hold(image, 0, d, &[Window { id: 0, first, end }]);
        self.hold(image, 0, now, &[Window { id: 0, first: d, end }]);
        self.hold(image, 0, now, &[Window { id: 0, first, end: d }]);
    }

    // Two dates as the ends of a window, asked about on each of them: their order is that of their days.
    fn order(&mut self, image: &[u8], a: Date, b: Date) {
        for (first, end) in [(a, b), (b, a), (a, a)] {
            for asked in [a, b] {
                self.hold(image, 0, asked, &[Window { id: 0, first, end }]);
            }
        }
    }

    fn all_dates(&mut self, image: &[u8], random: &mut Random) -> (u64, u64) {
        for day in START..=END {
            let d = date_of(day);
            self.exists(image, d);
            self.order(image, d, date_of(day + 1));
            self.order(image, d, date_of(FIRST + random.below((PAST - FIRST) as usize) as i64));
        }
        for year in YEARS {
            for (month, day) in (0..=13).flat_map(|month| (0..=32).map(move |day| (month, day))) {
                self.exists(image, date(year, month, day));
            }
        }
        ((END - START + 1) as u64, 10 * 14 * 33)
    }

    // A list of windows, asked about; and with a good window more, at any place: a name that was given is given again.
    fn list(&mut self, random: &mut Random, image: &[u8]) {
        let center = FIRST + random.below((PAST - FIRST) as usize) as i64;
        let span = random.pick(&[2, 5, 40, 400, 100_000]);
        let odd = random.pick(&[0, 0, 0, 4, 30]);
        let windows: Vec<Window> = (0..random.below(9)).map(|_| window(random, center, span, odd)).collect();
        let id = random.below(4) as u32;
        let asked = any_date(random, center, span, odd);
        let answer = self.hold(image, id, asked, &windows);
        let more = window(random, center, span, 0);
        let (first, end) = (self.calendar.day(more.first), self.calendar.end(more.end));
        if first.is_some() && first < end {
            let mut longer = windows.clone();
            longer.insert(random.below(windows.len() + 1), more);
            let again = self.hold(image, id, asked, &longer);
            if answer.found == 1 {
                self.tally.rule(again, answer, || format!("{more:?} added to {windows:?}"));
            }
        }
    }
}

// A date near a day; once in `odd` any three numbers, or a date with one number changed.
fn any_date(random: &mut Random, center: i64, span: usize, odd: usize) -> Date {
    let near = center + random.below(span) as i64 - span as i64 / 2;
    let mut d = date_of(near.clamp(FIRST, PAST - 1));
    if odd > 0 && random.once_in(odd) {
        match random.below(4) {
            0 => d = date(random.word() as u16, random.word() as u8, random.word() as u8),
            1 => d.year = random.pick(&[0, 1899, 1900, 2100, 2199, 2200, 65535]),
            2 => d.month = random.pick(&[0, 2, 2, 4, 13, 255]),
            _ => d.day = random.pick(&[0, 28, 29, 30, 31, 32, 255]),
        }
    }
    d
}

// A window whose dates are mostly in order.
fn window(random: &mut Random, center: i64, span: usize, odd: usize) -> Window {
    let (a, b) = (any_date(random, center, span, odd), any_date(random, center, span, odd));
    let key = |d: Date| (d.year, d.month, d.day);
    let swap = key(b) < key(a) && !(odd > 0 && random.once_in(odd));
    let (first, end) = if swap { (b, a) } else { (a, b) };
    let end = if first == end && !(odd > 0 && random.once_in(odd)) { date(2200, 1, 1) } else { end };
    Window { id: random.below(4) as u32, first, end }
}

// An image in which most of the ids 0 to 3 have a name.
fn image(random: &mut Random) -> Vec<u8> {
    let mut buf = vec![0; HEAD + 400];
    let mut counts = [0; 256];
    let mut record = archive::begin(u32::from(random.once_in(20)), 1, &mut counts, &buf).record;
    for id in (0..4).filter(|_| !random.once_in(5)).collect::<Vec<u32>>() {
        let name: Vec<u8> = (0..random.below(30)).map(|_| 1 + random.below(255) as u8).collect();
        record = archive::put(record, &mut counts, &mut buf, &name, id).record;
    }
    let size = archive::close(record, &counts, &mut buf).size as usize;
    buf.truncate(size);
    let kind = random.below(3 * damage::KINDS);
    if kind < damage::KINDS {
        damage::copy(random, &buf, kind)
    } else {
        buf
    }
}

fn main() {
    let lists = std::env::args().nth(1).map_or(LISTS, |text| text.parse().expect("a number of lists"));
    let mut random = Random::new();
    println!("season: seed {}", random.seed);
    let mut run = Run { tally: Tally::default(), calendar: Calendar::new(), answers: [0; 4] };
    let named = (0..)
        .map(|_| image(&mut random))
        .find(|image| rules::to_str(image, 0).is_some())
        .expect("an image that names 0");
    let (days, triples) = run.all_dates(&named, &mut random);
    println!(
        "season: {days} days and {triples} other triples of numbers, each as date asked about, first date and end date"
    );
    let mut lent = named;
    for i in 0..lists {
        if i % 50 == 0 {
            lent = image(&mut random);
        }
        run.list(&mut random, &lent);
    }
    let [name, nothing, two, three] = run.answers;
    println!("season: {lists} random lists; in all {name} times a name, {nothing} times nothing, {two} times 22, {three} times 23");
    println!("season: {} answers compared with 02's rule: {} different", run.tally.rule, run.tally.different);
    std::process::exit(i32::from(run.tally.different > 0));
}

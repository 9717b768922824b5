// Writing, compared live: lists of puts in both modes, with repeats off and on, whose image must be the Rust's for the accepted
// puts, byte for byte; and records, buffers and entries that do not go together, compared with the rules of 01 and 02.
//   writer [LISTS]
mod archive;
mod names;
mod original;
mod rules;
mod seed;
mod spoil;
mod tally;
mod writing;

use archive::{CloseAnswer, Record};
use names::Names;
use original::Put;
use rules::HEAD;
use seed::Random;
use tally::Tally;
use writing::State;

const LISTS: usize = 24_000;
const ODD_STATES_OF_ONE: usize = 4;

struct Run {
    tally: Tally,
    images: u64,
    // How often each call was accepted, and how often it gave each refusal.
    begins: [u64; 17],
    puts: [u64; 17],
    closes: [u64; 17],
    // Puts of a name that was put before a close, by whether repeats are on.
    again: [u64; 2],
}

impl Run {
    fn state(&mut self, given: &State, want: &State, what: impl Fn() -> String) {
        self.tally.rule(given.record, want.record, || format!("record after {}", what()));
        self.tally.rule(given.counts == want.counts, true, || format!("counts after {}", what()));
        self.tally.bytes(&given.buf, &want.buf, || format!("buffer after {}", what()));
    }

    // A begin on bytes, counts and a record of any content.
    fn begin(&mut self, random: &mut Random, (mode, repeats): (u32, u32), length: usize) -> Option<State> {
        let buf = random.bytes(length);
        let before = [random.word(); 256];
        let mut counts = before;
        let old = Record {
            mode: random.word(),
            repeats: random.word(),
            entries: random.word(),
            back: random.word(),
            length: random.next(),
            end: random.next(),
        };
        let mut left = old;
        let answer = archive::begin_in(mode, repeats, &mut left, &mut counts, &buf);
        self.begins[answer.min(16) as usize] += 1;
        let what = || format!("begin in {length} bytes");
        match writing::begin(mode, repeats, length) {
            Ok(record) => {
                self.tally.rule((answer, left), (0, record), what);
                self.tally.rule(counts, [0; 256], what);
                Some(State { record, counts, buf })
            }
            Err(refusal) => {
                self.tally.rule((answer, left), (refusal, old), what);
                self.tally.rule(counts, before, what);
                None
            }
        }
    }

    // A put, and whether it was accepted. `s` becomes the state after it.
    fn put(&mut self, s: &mut State, name: &[u8], id: u32) -> bool {
        let rule = writing::put(s, name, id);
        let refusal = rule.as_ref().err().copied().unwrap_or(0);
        let want = rule.unwrap_or_else(|_| s.clone());
        let answer = archive::put(s.record, &mut s.counts, &mut s.buf, name, id);
        let what = || format!("put of {} bytes, id {id}, on {:?}", name.len(), s.record);
        self.puts[refusal as usize] += 1;
        self.tally.rule(answer.refusal, refusal, what);
        s.record = answer.record;
        self.state(s, &want, || "a put".into());
        *s = want;
        refusal == 0
    }

    // A close. What it writes is the Rust's image of the entries; the bytes behind it keep their content.
    fn close(&mut self, s: &mut State, in_slice: bool) -> Option<u32> {
        let rule = writing::close(s);
        let mut want = s.clone();
        let answer = archive::close(s.record, &s.counts, &mut s.buf);
        let (refusal, size) = match &rule {
            Ok((size, puts)) => {
                let image = self.image(&want, puts, *size as usize, in_slice);
                want.buf[..image.len()].copy_from_slice(&image);
                self.tally.rust(s.buf == want.buf, true, || format!("image of {} puts", puts.len()));
                (0, *size)
            }
            Err(refusal) => (*refusal, 0),
        };
        self.closes[refusal as usize] += 1;
        self.tally.rule(answer, CloseAnswer { refusal, size }, || format!("close on {:?}", want.record));
        self.state(s, &want, || "a close".into());
        *s = want;
        (refusal == 0).then_some(size)
    }

    // The Rust's image; its size and entries must be those of the rules.
    fn image(&mut self, s: &State, puts: &[Put], size: usize, in_slice: bool) -> Vec<u8> {
        let oneway = s.record.mode == 1;
        let image = if in_slice { original::image_in_slice(oneway, puts, size) } else { original::image(oneway, puts) };
        let end = s.record.end as usize;
        self.images += 1;
        self.tally.rule(image.len(), size, || "size of the Rust's image".into());
        self.tally.rule(image[HEAD..end] == s.buf[HEAD..end], true, || "entries of the Rust's image".into());
        image
    }

    // Puts after a close: some of them are names that were put before it.
    fn further(&mut self, random: &mut Random, s: &mut State, puts: &[Put]) {
        for _ in 0..random.below(4) {
            let name = known_or_any(random, puts);
            let held = writing::entries(s).is_some_and(|entries| entries.iter().any(|put| put.0 == name));
            self.again[s.record.repeats as usize] += u64::from(held);
            self.put(s, &name, random.below(20) as u32);
        }
    }

    // A list from its begin to its close, some puts more, then small changes of the state that it left.
    fn list(&mut self, random: &mut Random, choices: (u32, u32), length: usize, puts: &[Put]) {
        let Some(mut s) = self.begin(random, choices, length) else { return };
        for (name, id) in puts {
            self.put(&mut s, name, *id);
        }
        let in_slice = random.once_in(2);
        self.close(&mut s, in_slice);
        self.further(random, &mut s, puts);
        for _ in 0..ODD_STATES_OF_ONE {
            let mut odd = s.clone();
            spoil::state(random, &mut odd);
            let (name, id) = (known_or_any(random, puts), random.pick(&[0, 7, odd.record.back, 0xffff_fffe, 0xffff_ffff]));
            if random.once_in(2) {
                self.put(&mut odd, &name, id);
            }
            self.close(&mut odd, false);
        }
    }
}

// A name of a list, or another.
fn known_or_any(random: &mut Random, puts: &[Put]) -> Vec<u8> {
    match puts {
        [_, ..] if random.once_in(2) => puts[random.below(puts.len())].0.clone(),
        _ => names::any(random),
    }
}

// The finished size of all puts of a list.
fn size_of(mode: u32, puts: &[Put]) -> u64 {
    let entries: u64 = puts.iter().map(|(name, _)| name.len() as u64 + 25).sum();
    let back = puts.iter().map(|put| put.1 as u64 + 1).max().unwrap_or(0);
    HEAD as u64 + entries + if mode == 1 { 0 } else { 4 * back }
}

// A buffer's length: exactly the finished size, one less, one more, that of some of the puts, more, the head's, or less.
fn length_for(random: &mut Random, mode: u32, puts: &[Put]) -> usize {
    let some = random.below(puts.len() + 1);
    let exact = |puts: &[Put]| size_of(mode, puts).min(1 << 20) as usize;
    match random.below(10) {
        0..=2 => exact(puts),
        3 => exact(puts) - 1,
        4 => exact(puts) + 1,
        5 => exact(&puts[..some]) + random.below(30),
        6 | 7 => exact(puts) + random.below(600),
        8 => HEAD + random.below(3),
        _ => random.pick(&[2071, 2072, 2071, 2070, 1]),
    }
}

// Some ids are too large for any buffer here. Their put is refused two-way and accepted one-way.
fn with_large_ids(random: &mut Random, mut puts: Vec<Put>) -> Vec<Put> {
    if random.once_in(4) {
        for put in &mut puts {
            if random.once_in(5) {
                put.1 = random.pick(&[0xffff_ffff, 0xffff_fffe, 0x8000_0000, 0x4000_0000, 20_000]);
            }
        }
    }
    puts
}

// The limits that need more than a small buffer. Its bytes are zero and mostly never touched; no close is accepted.
fn limits(run: &mut Run) {
    let mut counts = [0; 256];
    let mut room = vec![0u8; (1 << 32) + 5000];
    let fresh = archive::begin(0, 1, &mut counts, &room).record;
    let oneway = Record { mode: 1, ..fresh };
    let mut put = |record: Record, name: &[u8], id: u32, refusal: u32| {
        let mut counts = [0; 256];
        let answer = archive::put(record, &mut counts, &mut room, name, id);
        run.tally.rule(answer.refusal, refusal, || format!("put of {} bytes, id {id}, on {record:?}", name.len()));
        if refusal > 0 {
            run.tally.rule((answer.record, counts), (record, [0; 256]), || "a refused put".into());
        }
    };
    // 2,072 + 26 + 4 x 1,073,741,299 is 4,294,967,294; one id more exceeds 4,294,967,295, and not the buffer.
    put(fresh, b"A", 1_073_741_298, 0);
    put(fresh, b"A", 1_073_741_299, 3);
    put(fresh, b"A", u32::MAX, 3);
    put(oneway, b"A", u32::MAX, 0);
    put(Record { end: 4_294_967_295 - 26, ..oneway }, b"A", 0, 0);
    put(Record { end: 4_294_967_295 - 25, ..oneway }, b"A", 0, 3);
    put(Record { entries: u32::MAX, ..oneway }, b"A", 0, 3);
    put(Record { back: u32::MAX, ..fresh }, b"A", 0, 3);
    // With repeats off an entry that is not there gives 4 before 3, and a record without entries looks at none.
    let off = Record { repeats: 0, ..oneway };
    put(off, b"A", u32::MAX, 0);
    put(Record { repeats: 0, ..fresh }, b"A", u32::MAX, 3);
    put(Record { entries: u32::MAX, ..off }, b"A", 0, 4);
    put(Record { back: u32::MAX, ..off }, b"A", 0, 4);
    put(Record { repeats: 2, ..oneway }, b"A", 0, 2);
    put(Record { repeats: 2, ..oneway }, b"\0", 0, 2);
    // Names at the hash's own limit. They are longer than any image: 13 for a zero byte in front or at the end, else 3.
    let mut long = vec![0u8; 1 << 32];
    put(oneway, &long, 0, 13);
    put(Record { entries: 1, ..off }, &long, 0, 13);
    put(oneway, &long[..u32::MAX as usize], 0, 13);
    put(Record { end: 0, ..oneway }, &long[..u32::MAX as usize], 0, 2);
    long.fill(b'x');
    put(oneway, &long, 0, 3);
    put(oneway, &long[..u32::MAX as usize], 0, 3);
    put(off, &long[..u32::MAX as usize], 0, 3);
    put(Record { entries: 1, ..off }, &long[..u32::MAX as usize], 0, 4);
    long[u32::MAX as usize - 1] = 0;
    put(oneway, &long[..u32::MAX as usize], 0, 13);
    put(oneway, &long[..u32::MAX as usize - 1], 0, 3);
    drop(long);
    // An entry of that id, with a two-way record that has its count and back size: only the limit forbids its close.
    let entry = archive::put(oneway, &mut counts, &mut room, b"A", 1_073_741_299).record;
    let record = Record { mode: 0, back: 1_073_741_300, ..entry };
    let answer = archive::close(record, &counts, &mut room);
    run.tally.rule(answer, CloseAnswer { refusal: 4, size: 0 }, || "a close above the limit".into());
}

fn main() {
    let lists = std::env::args().nth(1).map_or(LISTS, |text| text.parse().expect("a number of lists"));
    let mut random = Random::new();
    println!("writer: seed {}", random.seed);
    let names = Names::new(&mut random);
    let mut run = Run { tally: Tally::default(), images: 0, begins: [0; 17], puts: [0; 17], closes: [0; 17], again: [0; 2] };
    limits(&mut run);
    for i in 0..lists {
        let mode = if random.once_in(100) { 2 + random.word() / 2 } else { random.below(2) as u32 };
        let puts = names.list(&mut random, if i % 100 == 99 { 300 } else { 16 });
        let puts = if random.once_in(2) { names::repeating(&mut random, &names, puts) } else { puts };
        let puts = with_large_ids(&mut random, puts);
        let repeats = if random.once_in(100) { 2 + random.word() / 2 } else { random.below(2) as u32 };
        let length = length_for(&mut random, mode, &puts);
        run.list(&mut random, (mode, repeats), length, &puts);
    }
    println!("writer: {lists} lists, {} images compared with the Rust's in every byte", run.images);
    let shown = |calls: &[u64; 17]| -> Vec<u64> { calls[..5].iter().chain([&calls[13], &calls[16]]).copied().collect() };
    let [begins, puts, closes] = [&run.begins, &run.puts, &run.closes].map(shown);
    println!("writer: by refusal 0 to 4, 13 and 16: begins {begins:?}, puts {puts:?}, closes {closes:?}");
    println!("writer: names put before a close and again after it: with repeats off {}, on {}", run.again[0], run.again[1]);
    run.tally.end("writer");
}

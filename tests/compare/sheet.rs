// The round sheet through the archive, held to 02 (xi) told once more in plain Rust. First every file of up to 6 bytes from five
// bytes and of up to 14 from two; then lists of 0, 1, 65,535 and 65,536 ids; then random lists and files.   sheet [ROUNDS]
mod archive;
mod seed;
mod tally;

use archive::{SheetAnswer, SheetLengthAnswer};
use seed::Random;
use tally::Tally;

const ROUNDS: usize = 40_000;

type Lists = [Vec<u32>; 3];

// "Three sections in fixed order", each "a 16-bit count followed by that many 32-bit ids, all little-endian".
fn file_of(lists: &Lists) -> Vec<u8> {
    let mut file = Vec::new();
    for list in lists {
        file.extend((list.len() as u16).to_le_bytes());
        list.iter().for_each(|id| file.extend(id.to_le_bytes()));
    }
    file
}

// A section's part: where it begins, and its ids.
type Part = (usize, Vec<u32>);

// "The part of the file that holds its ids", of the section whose count stands at `at`. "Too few bytes give 19."
fn section(file: &[u8], at: usize) -> Result<Part, u32> {
    let count = file.get(at..at + 2).ok_or(19u32)?;
    let (start, size) = (at + 2, 4 * usize::from(u16::from_le_bytes([count[0], count[1]])));
    let part = file.get(start..start + size).ok_or(19u32)?;
    Ok((start, part.chunks(4).map(|id| u32::from_le_bytes([id[0], id[1], id[2], id[3]])).collect()))
}

// The three of them; "left-over bytes 20".
fn sections(file: &[u8]) -> Result<[Part; 3], u32> {
    let end = |(start, ids): &Part| start + 4 * ids.len();
    let references = section(file, 0)?;
    let walls = section(file, end(&references))?;
    let retired = section(file, end(&walls))?;
    if end(&retired) < file.len() {
        return Err(20);
    }
    Ok([references, walls, retired])
}

fn read_answer(file: &[u8]) -> SheetAnswer {
    match sections(file) {
        Ok(parts) => SheetAnswer {
            refusal: 0,
            counts: [0, 1, 2].map(|s: usize| parts[s].1.len() as u32),
            starts: [0, 1, 2].map(|s: usize| parts[s].0 as u64),
        },
        Err(refusal) => SheetAnswer { refusal, counts: [0; 3], starts: [0; 3] },
    }
}

// "The writer gives the length and changes no byte past it"; "21 when a list passes 65,535 or the buffer is too short".
fn write_answer(buf: &mut [u8], lists: &Lists) -> SheetLengthAnswer {
    if lists.iter().any(|list| list.len() > 65_535) {
        return SheetLengthAnswer { refusal: 21, length: 0 };
    }
    let file = file_of(lists);
    if file.len() > buf.len() {
        return SheetLengthAnswer { refusal: 21, length: 0 };
    }
    buf[..file.len()].copy_from_slice(&file);
    SheetLengthAnswer { refusal: 0, length: file.len() as u64 }
}

#[derive(Default)]
struct Run {
    tally: Tally,
    // Files read: sheets, 19, 20. Lists written, and 21.
    read: [u64; 3],
    written: [u64; 2],
}

impl Run {
    fn read(&mut self, file: &[u8]) {
        let answer = archive::sheet_read(file);
        self.tally.rule(answer, read_answer(file), || {
            format!("reading {} bytes: {:?}", file.len(), &file[..file.len().min(24)])
        });
        self.read[if answer.refusal == 0 { 0 } else { answer.refusal.min(20) as usize - 18 }] += 1;
    }

    // What is given, and every byte of the buffer.
    fn write(&mut self, lists: &Lists, buf: &[u8]) -> Vec<u8> {
        let (mut given, mut due) = (buf.to_vec(), buf.to_vec());
        let answer = archive::sheet_write(&mut given, [&lists[0], &lists[1], &lists[2]]);
        let lengths = || format!("{:?} ids in {} bytes", lists.each_ref().map(Vec::len), buf.len());
        self.tally.rule(answer, write_answer(&mut due, lists), lengths);
        self.tally.bytes(&given, &due, lengths);
        self.written[usize::from(answer.refusal > 0)] += 1;
        given.truncate(answer.length as usize);
        given
    }

    // A file that reads is what the writer makes of its lists, in a buffer of its length, and a byte fewer is too short.
    fn again(&mut self, file: &[u8]) {
        self.read(file);
        let Ok(parts) = sections(file) else { return };
        let lists = parts.map(|(_, ids)| ids);
        let made = self.write(&lists, &vec![0xee; file.len()]);
        self.tally.bytes(&made, file, || "a file that was written again".into());
        self.write(&lists, &vec![0xee; file.len() - 1]);
    }

    // Every file of up to `most` of these bytes.
    fn exhaust(&mut self, bytes: &[u8], most: usize) -> usize {
        let mut longest: Vec<Vec<u8>> = vec![Vec::new()];
        let mut files = 0;
        for length in 0..=most {
            longest.iter().for_each(|file| self.again(file));
            files += longest.len();
            if length < most {
                longest = longest
                    .iter()
                    .flat_map(|file| bytes.iter().map(move |byte| [&file[..], &[*byte]].concat()))
                    .collect();
            }
        }
        files
    }

    // Each of these numbers of ids in each section: a buffer of exactly the length, and one byte fewer and more.
    fn limits(&mut self, random: &mut Random, counts: &[usize]) {
        for n in counts.iter().flat_map(|a| counts.iter().flat_map(move |b| counts.iter().map(move |c| [*a, *b, *c]))) {
            let lists = n.map(|n| (0..n).map(|_| random.word()).collect::<Vec<_>>());
            let length = 6 + 4 * n.iter().sum::<usize>();
            let before = random.bytes(length + 1);
            for room in [length - 1, length, length + 1] {
                let file = self.write(&lists, &before[..room]);
                self.read(&file);
            }
        }
    }

    fn random(&mut self, random: &mut Random) {
        let lists = [(); 3].map(|()| {
            let n = random.pick(&[0, 0, 1, 2, 9, 60, 300]);
            (0..random.below(n + 1)).map(|_| random.word() >> random.pick(&[0, 8, 24])).collect::<Vec<_>>()
        });
        let length = file_of(&lists).len();
        let more = 1 + random.below(40);
        let room = random.pick(&[length, length, length - 1, length + 1, length / 2, length + more]);
        let before = random.bytes(room);
        let file = self.write(&lists, &before);
        self.again(&file);
        // cut anywhere, longer, one byte changed, any bytes
        self.again(&file[..random.below(file.len() + 1)]);
        self.again(&[&file[..], &random.bytes(more)].concat());
        let mut changed = file;
        if !changed.is_empty() {
            let at = random.below(changed.len());
            changed[at] = random.pick(&[0, 1, 2, 255, changed[at] ^ 128]);
        }
        self.again(&changed);
        let n = random.below(40);
        let few: Vec<u8> = (0..n).map(|_| if random.once_in(5) { 1 + random.below(3) as u8 } else { 0 }).collect();
        self.again(&few);
    }
}

fn main() {
    let rounds = std::env::args().nth(1).map_or(ROUNDS, |text| text.parse().expect("a number of rounds"));
    let mut random = Random::new();
    println!("sheet: seed {}", random.seed);
    let mut run = Run::default();
    let all = run.exhaust(&[0, 1, 2, 128, 255], 6) + run.exhaust(&[0, 1], 14);
    run.limits(&mut random, &[0, 1, 65_535, 65_536]);
    (0..rounds).for_each(|_| run.random(&mut random));
    let ([sheets, few, left], [written, refused]) = (run.read, run.written);
    println!("sheet: all {all} small files, lists at the limits and {rounds} random rounds");
    println!(
        "sheet: {sheets} files read, {few} times 19, {left} times 20; {written} sheets written, {refused} times 21"
    );
    println!("sheet: {} answers beside 02's rule: {} different", run.tally.rule, run.tally.different);
    std::process::exit(i32::from(run.tally.different > 0));
}

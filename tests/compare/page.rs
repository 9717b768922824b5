// The printed catalogue through the archive, held to 02 (iii) told once more in plain Rust: on images of random puts and on
// damaged copies of them, and on a sparse image with all ids up to the largest.   page [IMAGES | long]
// With `long` more than 1,000,000,000 lines are printed.
mod archive;
mod damage;
mod mapped;
mod rules;
mod seed;
mod tally;

use archive::PageAnswer;
use mapped::Mapped;
use rules::HEAD;
use seed::Random;
use tally::Tally;

const IMAGES: usize = 1_000;
const LINE: usize = 45;

// "Id right-aligned in 10, a space, 32 bytes of name, a plus sign if the name was longer, else a space, and a line feed."
fn line(id: u64, name: Option<&[u8]>) -> Vec<u8> {
    let mut line = format!("{id:>10} ").into_bytes();
    let printed = |place: usize| match name {
        None => b'-',
        Some(name) if place >= name.len() => b' ',
        Some(name) if name[place] < 32 || name[place] > 126 => b'.',
        Some(name) => name[place],
    };
    line.extend((0..32).map(printed));
    line.push(if name.is_some_and(|name| name.len() > 32) { b'+' } else { b' ' });
    line.push(b'\n');
    line
}

fn name_of(image: &[u8], id: u32) -> Option<&[u8]> {
    rules::to_str(image, id).map(|(start, len)| &image[start..start + len])
}

// "Every id below back size, in rising order", none "where 01's upper hint at id 0 is 0".
fn rule(image: &[u8]) -> Vec<u8> {
    (0..rules::upper_hint(image, 0)).flat_map(|id| line(id as u64, name_of(image, id))).collect()
}

#[derive(Default)]
struct Run {
    tally: Tally,
    images: u64,
    lines: u64,
    // Lines with 32 hyphens, and lines with a plus sign.
    gaps: u64,
    longer: u64,
    refused: u64,
}

impl Run {
    // One output buffer: what is given, and every byte afterwards.
    fn print(&mut self, image: &[u8], page: &[u8], before: Vec<u8>) {
        self.call(page, before, |out| archive::page(image, out));
    }

    // Some ids from one on, which may be behind the last: a part of the page.
    fn part(&mut self, random: &mut Random, image: &[u8], page: &[u8]) {
        let lines = page.len() / LINE;
        let first = random.pick(&[0, 1, lines / 2, lines, lines + 7]);
        let count = random.pick(&[0, 1, lines / 3, lines, lines + 9, u32::MAX as usize]);
        let (start, end) = (first.min(lines), (first + count).min(lines));
        let part = &page[start * LINE..end * LINE];
        for room in [part.len() + random.below(50), part.len().saturating_sub(1)] {
            let before = random.bytes(room);
            self.call(part, before, |out| archive::page_part(image, first as u32, count as u32, out));
        }
    }

    fn call(&mut self, page: &[u8], before: Vec<u8>, call: impl Fn(&mut [u8]) -> PageAnswer) {
        let mut out = before.clone();
        let answer = call(&mut out);
        let length = page.len() as u64;
        let (wanted, refusal) =
            if before.len() < page.len() { (before, 12) } else { ([page, &before[page.len()..]].concat(), 0) };
        let answered = PageAnswer { refusal, length: if refusal == 0 { length } else { 0 } };
        self.refused += u64::from(refusal > 0);
        self.tally.rule(answer, answered, || format!("{} bytes for a page of {length}", out.len()));
        self.tally.bytes(&out, &wanted, || format!("a page of {length} in {}", out.len()));
    }

    // Buffers of exactly the page's length, longer, and shorter.
    fn hold(&mut self, random: &mut Random, image: &[u8]) {
        let page = rule(image);
        self.tally.rule(archive::page_length(image), page.len() as u64, || "the length of a page".into());
        let more = 1 + random.below(100);
        let less = random.below(page.len() + 1);
        for room in [page.len(), page.len() + more, page.len().saturating_sub(1), less] {
            let before = random.bytes(room);
            self.print(image, &page, before);
        }
        self.part(random, image, &page);
        self.images += 1;
        self.lines += (page.len() / LINE) as u64;
        self.gaps += page.chunks(LINE).filter(|line| line[11..43] == [b'-'; 32]).count() as u64;
        self.longer += page.chunks(LINE).filter(|line| line[43] == b'+').count() as u64;
    }
}

// Names around 32 bytes, of the bytes around 32 and 126 among others.
fn name(random: &mut Random) -> Vec<u8> {
    let n =
        if random.once_in(3) { random.below(70) } else { random.pick(&[0, 1, 9, 30, 31, 31, 32, 32, 33, 33, 34, 300]) };
    match random.below(5) {
        0 => random.bytes(n),
        1 => vec![b'-'; n],
        2 | 3 => (0..n)
            .map(|_| random.pick(&[0, 10, 31, 31, 32, 32, 43, 45, 46, 126, 126, 127, 127, 128, 128, 255]))
            .collect(),
        _ => (0..n).map(|_| b'a' + random.below(26) as u8).collect(),
    }
}

type Put = (Vec<u8>, u32);

// The image of these puts. Put refuses a zero byte in a name (02 (v)), but an image that comes from elsewhere may have one: such
// a name is put with ones for its zeros, and its own bytes are then stored in the image. A page does not ask for the hash.
fn image(mode: u32, puts: &[Put]) -> Vec<u8> {
    let largest = puts.iter().map(|put| put.1 as usize + 1).max().unwrap_or(0);
    let mut buf = vec![0; HEAD + puts.iter().map(|put| put.0.len() + 25).sum::<usize>() + 4 * largest];
    let mut counts = [0; 256];
    let mut record = archive::begin(mode, 1, &mut counts, &buf).record;
    for (name, id) in puts {
        let free: Vec<u8> = name.iter().map(|&b| b.max(1)).collect();
        record = archive::put(record, &mut counts, &mut buf, &free, *id).record;
    }
    let closed = archive::close(record, &counts, &mut buf);
    assert_eq!(closed.refusal, 0, "there is room for all puts");
    buf.truncate(closed.size as usize);
    let mut at = HEAD;
    for (name, _) in puts {
        buf[at + 8..at + 8 + name.len()].copy_from_slice(name);
        at += name.len() + 9;
    }
    buf
}

// Puts with gaps and repeated ids.
fn puts(random: &mut Random) -> Vec<Put> {
    let n = random.below(25);
    let span = random.pick(&[1, 5, n + 1, 2 * n + 3, 40, 1_200]);
    (0..n).map(|_| (name(random), random.below(span) as u32)).collect()
}

// A page is a function of the names and the back size: puts of the same ids in another order, with each id's last put last,
// have another image and the same page.
fn another_order(run: &mut Run, random: &mut Random, puts: &[Put]) {
    let mut other = puts.to_vec();
    other.sort_by_key(|put| put.1.wrapping_mul(2_654_435_761));
    other.insert(0, (name(random), 0));
    if puts.iter().any(|put| put.1 == 0) {
        let page = rule(&image(0, puts));
        let before = random.bytes(page.len() + 5);
        run.print(&image(0, &other), &page, before);
    }
}

// Every byte alone, every length of 0 to 40, and 31 to 33 hyphens.
fn limits(run: &mut Run, random: &mut Random) {
    let bytes = (0..=255).map(|b| vec![b]);
    let lengths = (0..=40).map(|n| vec![b'x'; n]);
    let hyphens = (31..=33).map(|n| vec![b'-'; n]);
    let puts: Vec<Put> = bytes.chain(lengths).chain(hyphens).zip(0..).collect();
    run.hold(random, &image(0, &puts));
}

fn store(image: &mut [u8], at: usize, v: u32) {
    image[at..at + 4].copy_from_slice(&v.to_le_bytes());
}

// An image with these entries and a back array of `back` words, of which all but theirs are 0.
fn sparse(back: u32, puts: &[Put]) -> Mapped {
    let links = HEAD + puts.iter().map(|put| put.0.len() + 9).sum::<usize>();
    let mut image = Mapped::zeros(links + 4 * back as usize);
    store(&mut image, 16, back);
    store(&mut image, 20, links as u32);
    let mut at = HEAD;
    for (name, id) in puts {
        store(&mut image, links + 4 * *id as usize, at as u32);
        store(&mut image, at, *id);
        store(&mut image, at + 4, name.len() as u32 + 1);
        image[at + 8..at + 8 + name.len()].copy_from_slice(name);
        at += name.len() + 9;
    }
    image
}

// The largest back size there is: its length takes 38 bits, and no usual output has room. With back offset 0 there is no line.
fn largest(run: &mut Run) {
    let mut image = sparse(u32::MAX, &[]);
    run.tally.rule(archive::page_length(&image), 193_273_528_275, || "the length of the largest page".into());
    run.print(&image, &[0; 100], vec![7; 99]);
    store(&mut image, 20, 0);
    run.print(&image, &[], Vec::new());
    run.print(&image, &[], vec![7; 9]);
    run.images += 2;
}

// More than 1,000,000,000 lines. Only the last 262,144 of them stay to be compared: the output is one window of memory, mapped
// again and again.
fn long(run: &mut Run, random: &mut Random) {
    let (last, kept) = (1_000_100_000, 262_144);
    let puts: Vec<Put> = (0..5_000).map(|_| (name(random), last - 1 - random.below(kept) as u32)).collect();
    let image = sparse(last, &puts);
    let window = LINE * kept;
    let length = LINE * last as usize;
    let mut out = Mapped::window(window, length.div_ceil(window));
    let answer = archive::page(&image, &mut out[..length]);
    run.tally.rule(answer, PageAnswer { refusal: 0, length: length as u64 }, || "the longest page".into());
    for id in last - kept as u32..last {
        let at = LINE * id as usize;
        let wanted = line(id as u64, name_of(&image, id));
        run.tally.rule(&out[at..at + LINE], &wanted[..], || format!("line {id}"));
    }
    run.images += 1;
    run.lines += kept as u64;
}

fn main() {
    let asked = std::env::args().nth(1);
    let mut random = Random::new();
    println!("page: seed {}", random.seed);
    let mut run = Run::default();
    if asked.as_deref() == Some("long") {
        long(&mut run, &mut random);
    } else {
        for _ in 0..asked.map_or(IMAGES, |text| text.parse().expect("a number of images")) {
            let puts = puts(&mut random);
            let mode = u32::from(random.once_in(20));
            let image = image(mode, &puts);
            run.hold(&mut random, &image);
            for kind in 0..damage::KINDS {
                let copy = damage::copy(&mut random, &image, kind);
                run.hold(&mut random, &copy);
            }
            another_order(&mut run, &mut random, &puts);
        }
        limits(&mut run, &mut random);
        largest(&mut run);
    }
    println!(
        "page: {} images with {} lines, {} of them with 32 hyphens and {} with a plus sign; {} calls refused",
        run.images, run.lines, run.gaps, run.longer, run.refused
    );
    println!("page: {} answers compared with 02's rule: {} different", run.tally.rule, run.tally.different);
    std::process::exit(i32::from(run.tally.different > 0));
}

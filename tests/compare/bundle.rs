// Several walls in a file, through the archive, held to 02 (i) written a second time in plain Rust: whole and damaged files, every
// position before, at and behind a break, the count, and appends into buffers that are exact, a byte short or longer.
// bundle [FILES]
mod archive;
mod rules;
mod seed;
mod tally;

use archive::{BundleAppendAnswer, BundleCountAnswer, BundleOpenAnswer};
use rules::{word, HEAD};
use seed::Random;
use tally::Tally;

const FILES: usize = 60_000;

// ---- the rule

// "A walk that meets 1 to 7 last bytes, or a size word under 2,072 or past the file's end, gives 10, and one that comes to
// exactly the file's end .. at or before the position gives 11." Otherwise where the image stands.
fn walk(file: &[u8], position: u64) -> Result<(usize, usize), u32> {
    let (mut start, mut left) = (0, position);
    loop {
        let rest = &file[start..];
        match rest.len() {
            0 => return Err(11),
            1..=7 => return Err(10),
            _ => {}
        }
        let size = word(rest, 4) as usize;
        if size < HEAD || size > rest.len() {
            return Err(10);
        }
        if left == 0 {
            return Ok((start, size));
        }
        left -= 1;
        start += size;
    }
}

// "Opening gets exactly the size word's bytes"; 10 and 11 "come before 01's opening checks".
fn open(file: &[u8], position: u64) -> BundleOpenAnswer {
    let opened = walk(file, position).and_then(|(start, size)| Ok((start, size, rules::open(&file[start..][..size])?)));
    match opened {
        Ok((start, size, num)) => BundleOpenAnswer { refusal: 0, num, start: start as u64, size: size as u64 },
        Err(refusal) => BundleOpenAnswer { refusal, num: 0, start: 0, size: 0 },
    }
}

// How many positions have an image, unless the walk breaks off.
fn count(file: &[u8]) -> BundleCountAnswer {
    let mut images = 0;
    loop {
        match walk(file, images) {
            Ok(_) => images += 1,
            Err(11) => return BundleCountAnswer { refusal: 0, images },
            Err(refusal) => return BundleCountAnswer { refusal, images: 0 },
        }
    }
}

// "Append walks the whole file, gives 10 also for a file number above the buffer's length, a new image under 2,072 bytes or whose
// size word isn't its length, then 3 when the joined length exceeds the buffer." It "writes the image's bytes right after
// the file's, changes no other byte and gives the joined length".
fn append(buf: &mut [u8], file_len: u64, image: &[u8]) -> BundleAppendAnswer {
    let refused = |refusal| BundleAppendAnswer { refusal, length: 0 };
    let end = match usize::try_from(file_len) {
        Ok(end) if end <= buf.len() => end,
        _ => return refused(10),
    };
    if count(&buf[..end]).refusal > 0 || image.len() < HEAD || word(image, 4) as usize != image.len() {
        return refused(10);
    }
    let joined = end + image.len();
    if joined > buf.len() {
        return refused(3);
    }
    buf[end..joined].copy_from_slice(image);
    BundleAppendAnswer { refusal: 0, length: joined as u64 }
}

// ---- images and files

fn put_word(bytes: &mut [u8], at: usize, value: u32) {
    bytes[at..at + 4].copy_from_slice(&value.to_le_bytes());
}

// An image of some puts, of names without a zero byte; once in four, one whose head opening refuses or whose table reaches past its end.
fn image(random: &mut Random) -> Vec<u8> {
    let mut buf = vec![0; HEAD + 600];
    let mut counts = [0; 256];
    let mut record = archive::begin(u32::from(random.once_in(3)), 1, &mut counts, &buf).record;
    for id in 0..random.below(9) as u32 {
        let n = random.below(20);
        let name: Vec<u8> = random.bytes(n).into_iter().map(|b| b.max(1)).collect();
        let put = archive::put(record, &mut counts, &mut buf, &name, id);
        assert_eq!(put.refusal, 0, "a put with room");
        record = put.record;
    }
    let size = archive::close(record, &counts, &mut buf).size;
    buf.truncate(size as usize);
    match random.below(16) {
        0 => buf[random.below(4)] ^= 1,
        1 => buf[12] ^= 1,
        2 => put_word(&mut buf, 24 + 8 * random.below(256), size + 1 - random.below(3) as u32),
        3 => put_word(&mut buf, 20, size - random.below(3) as u32),
        _ => {}
    }
    buf
}

// The part at a position, of an image that does not open too; so its place comes from the rule.
fn part(file: &[u8], position: u64) -> &[u8] {
    walk(file, position).map_or(&[], |(start, size)| &file[start..][..size])
}

struct File {
    bytes: Vec<u8>,
    // Where each of the images begins that it was made of.
    starts: Vec<usize>,
}

const KINDS: usize = 12;

// A file of up to six images, whole or damaged.
fn file(random: &mut Random, pool: &[Vec<u8>], kind: usize) -> File {
    let (mut bytes, mut starts) = (Vec::new(), Vec::new());
    for _ in 0..random.below(7) {
        starts.push(bytes.len());
        bytes.extend_from_slice(&pool[random.below(pool.len())]);
    }
    let at = if starts.is_empty() { None } else { Some(random.pick(&starts)) };
    let size = at.map_or(0, |at| word(&bytes, at + 4));
    let left = at.map_or(0, |at| (bytes.len() - at) as u32);
    match (kind, at) {
        // Size words: by one, too small, to the file's end and past it, too large.
        (1, Some(at)) => put_word(&mut bytes, at + 4, size - 1),
        (2, Some(at)) => put_word(&mut bytes, at + 4, size + 1),
        (3, Some(at)) => put_word(&mut bytes, at + 4, random.pick(&[0, 7, 8, 2071, 2072, 2073])),
        (4, Some(at)) => put_word(&mut bytes, at + 4, left + 1 - random.below(3) as u32),
        (5, Some(at)) => put_word(&mut bytes, at + 4, random.pick(&[u32::MAX, u32::MAX - 1, 1 << 31, 1 << 20])),
        (6, Some(at)) => put_word(&mut bytes, at + 4, random.word()),
        // Left-over bytes: 1 to 7, 8 to 2,071, and the first of another image.
        (7, _) => bytes.extend(vec![0xff; 1 + random.below(7)]),
        (8, _) => {
            let n = 8 + random.below(HEAD - 8);
            bytes.extend(random.bytes(n));
        }
        (9, _) => bytes.extend_from_slice(&pool[0][..8 + random.below(HEAD - 8)]),
        // Cut anywhere, and a byte that is changed.
        (10, Some(_)) => bytes.truncate(random.below(bytes.len() + 1)),
        (11, Some(_)) => {
            let at = random.below(bytes.len());
            bytes[at] ^= 1 << random.below(8);
        }
        _ => {}
    }
    File { bytes, starts }
}

// ---- the comparison

#[derive(Default)]
struct Run {
    tally: Tally,
    opened: [u64; 12],
    counted: [u64; 12],
    appended: [u64; 12],
    kept: u64,
}

impl Run {
    // Every position up to two behind the last image that the file was made of, and some far away.
    fn positions(&mut self, file: &File) {
        let last = file.starts.len() as u64 + 2;
        for position in (0..=last).chain([1 << 32, u64::MAX]) {
            let answer = archive::bundle_open(&file.bytes, position);
            let rule = open(&file.bytes, position);
            self.tally.rule(answer, rule, || format!("position {position} of {} bytes", file.bytes.len()));
            self.opened[answer.refusal as usize] += 1;
        }
        let answer = archive::bundle_count(&file.bytes);
        self.tally.rule(answer, count(&file.bytes), || format!("the count of {} bytes", file.bytes.len()));
        self.counted[answer.refusal as usize] += 1;
    }

    // One append into a buffer of `room` bytes that begins with the file; `file_len` bytes of it are said to be the file.
    fn append(&mut self, random: &mut Random, file: &[u8], room: usize, file_len: u64, image: &[u8]) {
        let filling = random.word() as u8;
        let mut buf = file.to_vec();
        buf.resize(room, filling);
        let mut wanted = buf.clone();
        let answer = archive::bundle_append(&mut buf, file_len, image);
        let rule = append(&mut wanted, file_len, image);
        self.tally.rule(answer, rule, || format!("append to {file_len} of {room} bytes"));
        self.tally.rule(buf == wanted, true, || format!("the buffer after an append to {file_len} of {room} bytes"));
        self.appended[answer.refusal as usize] += 1;
        if answer.refusal == 0 {
            self.grown(&wanted[..file_len as usize], &buf[..answer.length as usize], image);
        }
    }

    // After an accepted append every earlier position opens as before, to the same bytes, and its names and ids are answered as
    // before; the next position is the new image.
    fn grown(&mut self, old: &[u8], new: &[u8], image: &[u8]) {
        let images = count(old).images;
        for position in 0..images {
            let (before, after) = (archive::bundle_open(old, position), archive::bundle_open(new, position));
            self.tally.rule(after, before, || format!("position {position} after an append"));
            let (before, after) = (part(old, position), part(new, position));
            self.tally.rule(!after.is_empty() && after == before, true, || {
                format!("the bytes of position {position} after an append")
            });
            for id in 0..3 {
                let named = archive::named(before, id);
                self.tally.rule(archive::to_str(after, id), archive::to_str(before, id), || format!("id {id} after an append"));
                self.tally.rule(archive::home(after, id), archive::home(before, id), || format!("home of {id} after an append"));
                let name = named.unwrap_or(b"nobody");
                let (found, now) = (archive::to_id(before, name), archive::to_id(after, name));
                self.tally.rule(now, found, || format!("the name of id {id} after an append"));
            }
            self.kept += 1;
        }
        let (last, alone) = (archive::bundle_open(new, images), archive::open(image));
        self.tally.rule((last.refusal, last.num), (alone.refusal, alone.num), || "the appended image".into());
        let place = if last.refusal == 0 { (old.len() as u64, image.len() as u64) } else { (0, 0) };
        self.tally.rule((last.start, last.size), place, || "the place of the appended image".into());
        self.tally.rule(archive::bundle_count(new).images, images + 1, || "the count after an append".into());
    }

    fn appends(&mut self, random: &mut Random, file: &[u8], pool: &[Vec<u8>]) {
        let image = &pool[random.below(pool.len())];
        let (end, joined) = (file.len(), file.len() + image.len());
        for room in [joined, joined - 1, joined + random.below(100)] {
            self.append(random, file, room, end as u64, image);
        }
        // A file number that is not the file's length, or above the buffer's.
        let anywhere = random.below(joined + 1);
        let odd = random.pick(&[end.saturating_sub(1), end + 1, end + HEAD, joined, anywhere]);
        self.append(random, file, joined, odd as u64, image);
        let above = random.pick(&[joined as u64 + 1, 1 << 32, u64::MAX, u64::MAX - image.len() as u64 + 1]);
        self.append(random, file, joined, above, image);
        // A new image that is unfit, also where there is no room for it.
        let mut unfit = image.clone();
        match random.below(5) {
            0 => unfit.truncate(random.below(HEAD)),
            1 => unfit.push(0),
            2 => put_word(&mut unfit, 4, image.len() as u32 - 1),
            3 => put_word(&mut unfit, 4, image.len() as u32 + 1),
            _ => {
                unfit.truncate(HEAD - 1);
                put_word(&mut unfit, 4, HEAD as u32 - 1);
            }
        }
        let room = random.pick(&[end, joined, joined + 9]);
        self.append(random, file, room, end as u64, &unfit);
    }
}

fn main() {
    let files = std::env::args().nth(1).map_or(FILES, |text| text.parse().expect("a number of files"));
    let mut random = Random::new();
    println!("bundle: seed {}", random.seed);
    let pool: Vec<Vec<u8>> = (0..400).map(|_| image(&mut random)).collect();
    let mut run = Run::default();
    for i in 0..files {
        let file = file(&mut random, &pool, i % KINDS);
        run.positions(&file);
        run.appends(&mut random, &file.bytes, &pool);
    }
    println!("bundle: {files} files; opened, by refusal 0 to 11: {:?}", run.opened);
    println!("bundle: counted: {:?}; appended: {:?}; {} earlier images kept", run.counted, run.appended, run.kept);
    println!("bundle: {} answers compared with 02's rule: {} different", run.tally.rule, run.tally.different);
    std::process::exit(i32::from(run.tally.different > 0));
}

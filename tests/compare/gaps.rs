// The gaps between the Rust and document 01 that docs/DIFFERENCES.md lists, tried on both. Each case runs the Rust in a process
// of its own with limits on time and memory, since some never end and some want more memory than there is.   gaps [quick | CASE]
// quick: the cases that take at most three seconds.
mod archive;

use archive::Record;
use cqdb::{CQDBWriter, Flag, CQDB};
use std::io::{Cursor, Seek, SeekFrom, Write};
use std::process::Command;

struct Case {
    name: &'static str,
    seconds: u32,
    /// What the Rust does, and what is answered here.
    rust: fn() -> String,
    archive: fn() -> String,
    want: (&'static str, &'static str),
}

const NEVER: &str = "no answer within the time";
const NO_MEMORY: &str = "aborted for want of memory";
// Bytes of address space for the Rust. A name of 2^32 bytes fits in.
const MEMORY: u64 = 6 << 30;

const CASES: [Case; 12] = [
    Case { name: "full table", seconds: 3, rust: full_table_rust, archive: full_table, want: (NEVER, "nothing, 1 read") },
    Case { name: "id 4294967294", seconds: 3, rust: || put_rust(0xffff_fffe), archive: || put(0xffff_fffe), want: (NEVER, "3") },
    Case { name: "id 4294967295", seconds: 3, rust: || put_rust(0xffff_ffff), archive: || put(0xffff_ffff), want: (NEVER, "3") },
    Case { name: "id 2147483646", seconds: 60, rust: || put_rust(0x7fff_fffe), archive: || put(0x7fff_fffe), want: (NO_MEMORY, "3") },
    Case { name: "size 4294967296", seconds: 120, rust: || long_rust(4_294_965_199), archive: || long(4_294_965_199), want: ("size word 0, length word 4294965200", "3") },
    Case { name: "name of 4294967295 bytes", seconds: 120, rust: || long_rust(4_294_967_295), archive: || long(4_294_967_295), want: ("size word 2096, length word 0", "3") },
    Case { name: "no room for the close", seconds: 3, rust: || room_rust(2100, b""), archive: || room(2100, b""), want: ("put accepted, no head", "3, no byte changed") },
    Case { name: "no room for the entry", seconds: 3, rust: || room_rust(2081, b"A"), archive: || room(2081, b"A"), want: ("put in error, 9 bytes changed", "3, no byte changed") },
    Case { name: "buffer of 2071 bytes", seconds: 3, rust: short_rust, archive: short, want: ("accepted", "1") },
    Case { name: "flag word 2", seconds: 3, rust: flag_rust, archive: flag, want: ("flag word 2", "2") },
    Case { name: "name with a zero byte", seconds: 3, rust: zero_byte_rust, archive: zero_byte, want: ("a name of 3 bytes", "13") },
    Case { name: "name twice", seconds: 3, rust: twice_rust, archive: twice, want: ("A finds 5, 9 gives A", "off 16, on 0") },
];

// The table of the name A has one bucket, which another hash has taken (C12).
fn full_image() -> Vec<u8> {
    let t = archive::hash(b"A", 0).hash as usize % 256;
    let mut image = vec![0; 2080];
    image[..4].copy_from_slice(b"CQDB");
    image[12..16].copy_from_slice(&0x6244_5371u32.to_le_bytes());
    image[24 + 8 * t..][..4].copy_from_slice(&2072u32.to_le_bytes());
    image[28 + 8 * t] = 1;
    image[2076] = 1;
    image
}

fn full_table_rust() -> String {
    let image = full_image();
    format!("{:?}", CQDB::new(&image).expect("an image").to_id("A"))
}

fn full_table() -> String {
    let answer = archive::to_id(&full_image(), b"A");
    format!("{}, {} read", if answer.found == 1 { "found" } else { "nothing" }, answer.buckets)
}

fn put_rust(id: u32) -> String {
    let mut writer = CQDBWriter::new(Cursor::new(Vec::new())).expect("a stream");
    format!("{:?}", writer.put("A", id))
}

fn put(id: u32) -> String {
    refusal(0, 3000, b"A", id)
}

fn refusal(mode: u32, length: usize, name: &[u8], id: u32) -> String {
    let mut buf = vec![0; length];
    let mut counts = [0; 256];
    let record: Record = archive::begin(mode, 1, &mut counts, &buf).record;
    archive::put(record, &mut counts, &mut buf, name, id).refusal.to_string()
}

// A stream that keeps its first bytes and forgets the others.
struct Head {
    bytes: [u8; 2080],
    at: u64,
}

impl Write for Head {
    fn write(&mut self, from: &[u8]) -> std::io::Result<usize> {
        let at = self.at.min(2080) as usize;
        let n = from.len().min(2080 - at);
        self.bytes[at..at + n].copy_from_slice(&from[..n]);
        self.at += from.len() as u64;
        Ok(from.len())
    }

    fn flush(&mut self) -> std::io::Result<()> {
        Ok(())
    }
}

impl Seek for Head {
    fn seek(&mut self, to: SeekFrom) -> std::io::Result<u64> {
        self.at = match to {
            SeekFrom::Start(at) => at,
            SeekFrom::Current(by) => self.at.wrapping_add_signed(by),
            SeekFrom::End(_) => panic!("the Rust seeks from no end"),
        };
        Ok(self.at)
    }
}

// One-way, so that nothing but the name is large.
fn long_rust(n: usize) -> String {
    let mut head = Head { bytes: [0; 2080], at: 0 };
    let mut writer = CQDBWriter::with_flag(&mut head, Flag::ONEWAY).expect("a stream");
    writer.put(vec![b'x'; n], 0).expect("a stream without an end");
    drop(writer);
    let word = |at: usize| u32::from_le_bytes(head.bytes[at..at + 4].try_into().expect("four bytes"));
    format!("size word {}, length word {}", word(4), word(2076))
}

fn long(n: usize) -> String {
    refusal(1, (1 << 32) + 5000, &vec![b'x'; n], 0)
}

fn room_rust(length: usize, name: &[u8]) -> String {
    let mut buf = vec![0xa5; length];
    let mut writer = CQDBWriter::new(Cursor::new(&mut buf[..])).expect("a stream");
    let accepted = writer.put(name, 0).is_ok();
    if !accepted {
        std::mem::forget(writer);
        let changed = buf.iter().filter(|&&b| b != 0xa5).count();
        return format!("put in error, {changed} bytes changed");
    }
    drop(writer);
    format!("put accepted, {}", if &buf[..4] == b"CQDB" { "a head" } else { "no head" })
}

fn room(length: usize, name: &[u8]) -> String {
    let mut buf = vec![0xa5; length];
    let mut counts = [0; 256];
    let record = archive::begin(0, 1, &mut counts, &buf).record;
    let refusal = archive::put(record, &mut counts, &mut buf, name, 0).refusal;
    format!("{refusal}, {}", if buf.iter().all(|&b| b == 0xa5) { "no byte changed" } else { "bytes changed" })
}

fn short_rust() -> String {
    let mut buf = vec![0; 2071];
    let made = CQDBWriter::new(Cursor::new(&mut buf[..])).is_ok();
    String::from(if made { "accepted" } else { "in error" })
}

fn short() -> String {
    archive::begin(0, 1, &mut [0; 256], &[0; 2071]).refusal.to_string()
}

fn flag_rust() -> String {
    let mut stream = Cursor::new(Vec::new());
    drop(CQDBWriter::with_flag(&mut stream, Flag::from_bits_retain(2)));
    format!("flag word {}", stream.into_inner()[8])
}

fn flag() -> String {
    archive::begin(2, 1, &mut [0; 256], &[0; 2072]).refusal.to_string()
}

fn zero_byte_rust() -> String {
    let mut stream = Cursor::new(Vec::new());
    let mut writer = CQDBWriter::new(&mut stream).expect("a stream");
    writer.put(b"a\0b", 0).expect("a stream without an end");
    drop(writer);
    let image = stream.into_inner();
    let db = CQDB::new(&image).expect("an image");
    format!("a name of {} bytes", db.to_str(0).expect("a name").len())
}

fn zero_byte() -> String {
    refusal(0, 3000, b"a\0b", 0)
}

fn twice_rust() -> String {
    let mut stream = Cursor::new(Vec::new());
    let mut writer = CQDBWriter::new(&mut stream).expect("a stream");
    for id in [5, 9] {
        writer.put("A", id).expect("a stream without an end");
    }
    drop(writer);
    let image = stream.into_inner();
    let db = CQDB::new(&image).expect("an image");
    format!("A finds {}, 9 gives {}", db.to_id("A").expect("an id"), db.to_str(9).expect("a name"))
}

// The refusals of the second put, with repeats off and on.
fn twice() -> String {
    let second = |repeats: u32| {
        let mut buf = vec![0; 3000];
        let mut counts = [0; 256];
        let record = archive::begin(0, repeats, &mut counts, &buf).record;
        let record = archive::put(record, &mut counts, &mut buf, b"A", 5).record;
        archive::put(record, &mut counts, &mut buf, b"A", 9).refusal
    };
    format!("off {}, on {}", second(0), second(1))
}

// The Rust's answer, from a process with limits.
fn apart(case: &Case) -> String {
    let program = std::env::current_exe().expect("this program");
    let limited = format!("ulimit -c 0; ulimit -v {}; exec timeout {} \"$0\" \"$1\"", MEMORY / 1024, case.seconds);
    let made = Command::new("sh").arg("-c").arg(limited).arg(program).arg(case.name).output().expect("a shell");
    match made.status.code() {
        Some(0) => String::from_utf8_lossy(&made.stdout).trim().to_string(),
        Some(124) => NEVER.into(),
        _ if String::from_utf8_lossy(&made.stderr).contains("memory allocation") => NO_MEMORY.into(),
        other => format!("ended with {other:?}: {}", String::from_utf8_lossy(&made.stderr).trim()),
    }
}

fn main() {
    let argument = std::env::args().nth(1);
    let quick = argument.as_deref() == Some("quick");
    if let Some(name) = argument.filter(|_| !quick) {
        let case = CASES.iter().find(|case| case.name == name).expect("a case");
        return println!("{}", (case.rust)());
    }
    let (mut tried, mut failed) = (0, 0);
    for case in CASES.iter().filter(|case| !quick || case.seconds <= 3) {
        tried += 1;
        let (rust, here) = (apart(case), (case.archive)());
        let as_listed = (rust.as_str(), here.as_str()) == case.want;
        failed += i32::from(!as_listed);
        println!("gaps: {}: the Rust: {rust}; here: {here}{}", case.name, if as_listed { "" } else { "   NOT AS LISTED" });
    }
    println!("gaps: {tried} tried, {failed} not as listed");
    std::process::exit(i32::from(failed > 0));
}

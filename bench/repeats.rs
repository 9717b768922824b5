// Single puts with repeats off, which walk all earlier entries: the time of a whole list of different names of 9 bytes; and what
// an entry that is visited costs beside the hash of its name. For the latter one more name is put into the full buffer: the put
// walks all entries and is refused with 3.
use crate::archive::{self, Counts, Record};
use crate::building::image_size;
use crate::names::Names;
use crate::table::least;
use std::hint::black_box;

const LENGTH: usize = 9;

#[repr(C)]
struct Timespec {
    seconds: i64,
    nanoseconds: i64,
}

extern "C" {
    fn clock_gettime(clock: i32, time: *mut Timespec) -> i32;
}

// The processor time of this thread: a list of a second is often interrupted, where other programs run.
fn thread_time() -> f64 {
    const THREAD: i32 = 3;
    let mut now = Timespec { seconds: 0, nanoseconds: 0 };
    // SAFETY: the struct is laid out as C has it, and is written alone.
    assert_eq!(unsafe { clock_gettime(THREAD, &mut now) }, 0);
    now.seconds as f64 * 1e9 + now.nanoseconds as f64
}

// begin and all puts; no close.
fn puts(names: &[&str], repeats: u32, counts: &mut Counts, buf: &mut [u8]) -> Record {
    let mut record = archive::begin(0, repeats, counts, buf).record;
    for (id, name) in names.iter().enumerate() {
        record = archive::put(record, counts, buf, name.as_bytes(), id as u32).record;
    }
    assert_eq!(record.entries as usize, names.len());
    record
}

fn hashes(names: &[&str]) {
    let sum = names.iter().fold(0u32, |sum, name| sum ^ archive::hash(name.as_bytes(), 0).hash);
    black_box(sum);
}

fn list(n: usize, repetitions: usize) {
    let names = Names::new('p', LENGTH, 0..n);
    let names = names.all();
    let mut buf = vec![0u8; image_size(n, LENGTH)];
    let mut counts = [0; 256];
    let mut lists = |repeats: u32| {
        let begin = thread_time();
        black_box(puts(&names, repeats, &mut counts, &mut buf));
        thread_time() - begin
    };
    let [off, on] = [0, 1].map(|repeats| (0..repetitions).map(|_| lists(repeats)).fold(f64::MAX, f64::min));
    let record = puts(&names, 0, &mut counts, &mut buf);
    let absent = "q".repeat(LENGTH);
    let visited = least(3_000, n, || {
        let answer = archive::put(record, &mut counts, &mut buf, black_box(absent.as_bytes()), 0);
        assert_eq!(answer.refusal, 3);
    });
    let hash = least(3_000, n, || hashes(black_box(&names)));
    println!("| {n} single puts, repeats off | {:.2} ms | | | |", off / 1e6);
    println!("| {n} single puts, repeats on | {:.2} ms | | | |", on / 1e6);
    println!("| a visited entry of {n} | {visited:.2} ns | | | |");
    println!("| the hash of its name | {hash:.2} ns | | | |");
    println!("| a visited entry over the hash of its name | {:.2} | | | |", visited / hash);
}

pub fn run() {
    list(1_000, 100);
    list(4_096, 10);
    list(16_384, 2);
}

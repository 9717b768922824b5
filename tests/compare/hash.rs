// The name hash, compared live: the archive's `cqdb_hash`, the Rust's `jhash` and lookup3's `hashlittle` on the same names.
mod archive;
#[path = "../../target/oracle/src/hash.rs"]
mod rust;
mod seed;

use archive::HashAnswer;
use seed::Random;

extern "C" {
    fn jenkins_hashlittle(key: *const u8, length: usize, initval: u32) -> u32;
}

const LONGEST: usize = 300;
const ROUNDS: usize = 400;
const LIMIT: usize = 4_294_967_295;

// lookup3's hash of bytes that include the zero byte.
fn c(closed: &[u8], start: u32) -> u32 {
    // SAFETY: the slice is valid for its length. lookup3 may read an aligned word whole, past the end of the slice.
    unsafe { jenkins_hashlittle(closed.as_ptr(), closed.len(), start) }
}

fn byte(kind: usize, x: u64) -> u8 {
    match kind {
        0 => x as u8,
        1 => b'a' + (x % 26) as u8,
        2 => if x % 2 == 0 { 0 } else { (x >> 8) as u8 },
        _ => 128 | x as u8,
    }
}

// Do all three agree on a name? `closed` is the name with its zero byte.
fn agree(closed: &[u8], start: u32) -> bool {
    let name = &closed[..closed.len() - 1];
    let want = HashAnswer { refusal: 0, hash: c(closed, start) };
    archive::hash(name, start) == want && rust::jhash(name, closed.len() as u32, start) == want.hash
}

// Names of every length, of several kinds of bytes, at every alignment of a word, with several start values.
fn names(random: &mut Random) -> (usize, usize) {
    let mut room = vec![0u8; LONGEST + 8];
    let (mut compared, mut different) = (0, 0);
    for round in 0..ROUNDS {
        for n in 0..=LONGEST {
            let at = (random.next() % 4) as usize;
            for b in &mut room[at..at + n] {
                *b = byte(round % 4, random.next());
            }
            room[at + n] = 0;
            for start in [0, 1, 0xdeadbeef, 0xffffffff, random.next() as u32] {
                compared += 1;
                if !agree(&room[at..at + n + 1], start) {
                    different += 1;
                    println!("hash: different at start {start:#x}, name {:02x?}", &room[at..at + n]);
                }
            }
        }
    }
    (compared, different)
}

// The longest name that is accepted and the shortest that is refused. Their bytes are zero and share one page of memory.
fn limit() -> (usize, usize) {
    let closed = vec![0u8; LIMIT];
    let accepted = agree(&closed, 0);
    let refused = archive::hash(&closed, 0) == HashAnswer { refusal: 9, hash: 0 };
    if !accepted || !refused {
        println!("hash: at the limit: {} bytes agree: {accepted}; {LIMIT} bytes are refused with 9: {refused}", LIMIT - 1);
    }
    (2, usize::from(!accepted) + usize::from(!refused))
}

fn main() {
    let mut random = Random::new();
    println!("hash: seed {}", random.seed);
    let (compared, different) = names(&mut random);
    let (at_limit, wrong) = limit();
    println!(
        "hash: {} names of 0 to {LONGEST} bytes, {compared} answers, and {at_limit} at the limit: {} different from lookup3 or the Rust",
        ROUNDS * (LONGEST + 1),
        different + wrong
    );
    if different + wrong > 0 {
        std::process::exit(1);
    }
}

// The name hash: ours, the Rust's `jhash` and C's `hashlittle`.
#[path = "../target/oracle/src/hash.rs"]
mod rust;
#[path = "../target/oracle/src/hash.rs"]
mod rust_again;

use crate::archive;
use crate::table::{self, best, least};
use std::hint::black_box;

extern "C" {
    fn jenkins_hashlittle(key: *const u8, length: usize, initval: u32) -> u32;
}

const REPETITIONS: usize = 1_500;
const NAMES: usize = 8;

fn all(calls: usize, names: &[Vec<u8>; NAMES], mut hash: impl FnMut(&[u8]) -> u32) {
    let mut sum = 0u32;
    for _ in 0..calls / NAMES {
        for name in black_box(names) {
            sum ^= hash(name);
        }
    }
    black_box(sum);
}

pub fn run() {
    for size in [9usize, 16, 64, 1024] {
        // Eight names; C is given each with its zero byte.
        let names: [Vec<u8>; NAMES] = std::array::from_fn(|k| (0..size).map(|i| (i * 37) as u8 ^ k as u8).collect());
        let closed: [Vec<u8>; NAMES] = std::array::from_fn(|k| names[k].iter().copied().chain([0]).collect());
        let calls = 3_000_000 / (size + 16) / NAMES * NAMES;
        let ours = || all(calls, &names, |n| archive::hash(n, 0).hash);
        // The Rust's `jhash`, compiled by itself and called, as its `put` does. In its `to_id` the compiler inlines it, with the
        // length known to be the name's plus 1: the second row.
        let jhash: fn(&[u8], u32, u32) -> u32 = black_box(rust::jhash);
        let called = || all(calls, &names, |n| jhash(n, n.len() as u32 + 1, 0));
        let times = best(REPETITIONS, calls, ours, called);
        // SAFETY: the slice is valid for its length; lookup3 may read an aligned word whole, past its end.
        let c = || all(calls, &closed, |n| unsafe { jenkins_hashlittle(n.as_ptr(), n.len(), 0) });
        let c = least(REPETITIONS, calls, c);
        table::row(&format!("hash of {size} bytes"), times, Some(c));
        // A second copy of the Rust's source, which the compiler inlines into this loop.
        let inlined = || all(calls, &names, |n| rust_again::jhash(n, n.len() as u32 + 1, 0));
        table::row(&format!("hash of {size} bytes, the Rust inlined"), best(REPETITIONS, calls, ours, inlined), None);
    }
}

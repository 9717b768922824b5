// Names for the benchmarks, in one block of memory. All have the same length, which the compiler does not know.
use std::hint::black_box;

/// The numbers below n, each once, in an order that jumps about.
pub fn mixed(n: usize) -> impl Iterator<Item = usize> {
    (0..n).map(move |i| (i * 611_953 + 7) % n)
}

/// The names of the load of a seed (02 (xiii)), and those that would follow them: 9 bytes each, 2^32 of them before one comes again.
pub fn drawn(seed: u32) -> impl Iterator<Item = String> {
    let step = |s: &u32| Some(s.wrapping_mul(1_664_525).wrapping_add(1_013_904_223));
    std::iter::successors(Some(seed), step).skip(1).map(|s| format!("P{s:08X}"))
}

pub struct Names {
    bytes: Vec<u8>,
    length: usize,
}

impl Names {
    /// Each name is the letter and a number, with zeros between.
    pub fn new(letter: char, length: usize, numbers: impl Iterator<Item = usize>) -> Names {
        Names::of(length, numbers.map(|i| format!("{letter}{i:0width$}", width = length - 1)))
    }

    /// So many lists of n names of 9 bytes, all different. Short lists take turns in a measurement: of one list again and again the
    /// processor learns each branch.
    #[allow(dead_code)]
    pub fn lists(n: usize, lists: usize) -> Vec<Names> {
        (0..lists).map(|list| Names::new('p', 9, list * n..(list + 1) * n)).collect()
    }

    /// These names, all of this length.
    pub fn of(length: usize, names: impl Iterator<Item = String>) -> Names {
        Names { bytes: names.flat_map(String::into_bytes).collect(), length: black_box(length) }
    }

    pub fn all(&self) -> Vec<&str> {
        self.bytes.chunks(self.length).map(|name| std::str::from_utf8(name).expect("letters and digits")).collect()
    }
}

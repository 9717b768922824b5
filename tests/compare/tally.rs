// What a comparison counts, and how it ends.
#![allow(dead_code)]
use std::fmt::Debug;

const SHOWN: u64 = 10;

#[derive(Default)]
pub struct Tally {
    /// How many answers were compared with the Rust's.
    pub rust: u64,
    /// How many were compared with the rules of 01 or 02.
    pub rule: u64,
    pub different: u64,
}

impl Tally {
    /// Compares an answer of the archive with the Rust's.
    pub fn rust<T: PartialEq + Debug>(&mut self, given: T, theirs: T, what: impl FnOnce() -> String) {
        self.rust += 1;
        self.equal("the Rust", given, theirs, what);
    }

    /// Compares an answer of the archive with that of the rules.
    pub fn rule<T: PartialEq + Debug>(&mut self, given: T, rules: T, what: impl FnOnce() -> String) {
        self.rule += 1;
        self.equal("the rules", given, rules, what);
    }

    /// Compares byte strings, and prints the first difference alone.
    pub fn bytes(&mut self, given: &[u8], theirs: &[u8], what: impl FnOnce() -> String) {
        if given != theirs {
            let i = (0..).find(|&i| given.get(i) != theirs.get(i)).expect("the first difference");
            self.equal("wanted", (given.len(), i, given.get(i)), (theirs.len(), i, theirs.get(i)), what);
        }
    }

    fn equal<T: PartialEq + Debug>(&mut self, whose: &str, given: T, theirs: T, what: impl FnOnce() -> String) {
        if given != theirs {
            self.different += 1;
            if self.different <= SHOWN {
                println!("different: {}: the archive {given:?}, {whose} {theirs:?}", what());
            }
        }
    }

    /// Ends the program, with status 0 where nothing differed.
    pub fn end(&self, name: &str) -> ! {
        println!(
            "{name}: {} answers compared with the Rust's and {} with 01's rules: {} different",
            self.rust, self.rule, self.different
        );
        std::process::exit(i32::from(self.different > 0));
    }
}

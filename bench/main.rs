// The benchmarks: ours and the Rust's release build, or a copy for bundles, in one run and one table. The two take turns, and each
// time is the best of several repetitions.   main [PART]
#[path = "../tests/compare/archive.rs"]
mod archive;
mod average;
mod building;
mod bundle;
mod canonical;
mod changes;
mod drop_in;
mod hash;
mod load;
mod names;
mod page;
mod preflight;
mod reading;
mod repeats;
mod round;
mod table;

const PARTS: [(&str, fn()); 13] = [
    ("hash", hash::run),
    ("reading", reading::run),
    ("building", building::run),
    ("repeats", repeats::run),
    ("page", page::run),
    ("bundle", bundle::run),
    ("load", load::run),
    ("canonical", canonical::run),
    ("round", round::run),
    ("average", average::run),
    ("changes", changes::run),
    ("preflight", preflight::run),
    ("drop-in", drop_in::run),
];

fn main() {
    let part = std::env::args().nth(1);
    let wanted: Vec<_> = PARTS.iter().filter(|(name, _)| part.as_deref().is_none_or(|part| part == *name)).collect();
    if wanted.is_empty() {
        let names: Vec<&str> = PARTS.iter().map(|(name, _)| *name).collect();
        eprintln!("bench: the parts are {} and peers", names.join(", "));
        std::process::exit(2);
    }
    table::head();
    wanted.iter().for_each(|(_, run)| run());
}

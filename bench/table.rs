// Timing, and the rows of the table.
use std::time::Instant;

/// Nanoseconds for each of n calls.
pub fn time(n: usize, mut calls: impl FnMut()) -> f64 {
    let begin = Instant::now();
    calls();
    begin.elapsed().as_nanos() as f64 / n as f64
}

/// The best time of several.
pub fn least(repetitions: usize, n: usize, mut calls: impl FnMut()) -> f64 {
    (0..repetitions).map(|_| time(n, &mut calls)).fold(f64::MAX, f64::min)
}

/// The best times of ours and theirs, which take turns.
pub fn best(repetitions: usize, n: usize, mut ours: impl FnMut(), mut theirs: impl FnMut()) -> (f64, f64) {
    let (mut own, mut rust) = (f64::MAX, f64::MAX);
    for _ in 0..repetitions {
        own = own.min(time(n, &mut ours));
        rust = rust.min(time(n, &mut theirs));
    }
    (own, rust)
}

pub fn head() {
    println!("| What | Ours | Rust | Rust / ours | C |");
    println!("|---|---|---|---|---|");
}

pub fn row(what: &str, (ours, rust): (f64, f64), c: Option<f64>) {
    let c = c.map_or(String::new(), |c| format!("{c:.1} ns"));
    println!("| {what} | {ours:.1} ns | {rust:.1} ns | {:.2} | {c} |", rust / ours);
}

pub fn own_row(what: &str, ours: f64) {
    println!("| {what} | {ours:.1} ns | | | |");
}

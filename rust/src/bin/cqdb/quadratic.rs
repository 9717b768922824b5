//! What takes time that grows with the square of a number: entries whose names are equal stand in one table, and each
//! search for one of them passes the others.
use cqdb::CQDB;

use crate::outcome;

/// So many equal names take some tenths of a second; twice as many take four times as long.
const MANY: u64 = 10_000;

/// Says so where many entries have the same hash.
pub fn tell(command: &str, most: u64) {
    if most >= MANY {
        outcome::tell(&format!(
            "{command}: {most} entries have the same hash, as equal names have: the searches for them take {} steps",
            most * most / 2
        ));
    }
}

/// Says so of an image.
pub fn tell_of(db: &CQDB, command: &str) {
    tell(command, equal_hashes(db).unwrap_or(0));
}

/// The largest number of entries that have the same hash; none where no table has many entries.
fn equal_hashes(db: &CQDB) -> Option<u64> {
    let run = |table: u32| -> Option<u64> {
        let filled = db.buckets(table).count();
        if (filled as u64) < MANY {
            return None;
        }
        let mut hashes: Vec<u32> = Vec::new();
        hashes.try_reserve(filled).ok()?;
        hashes.extend(db.buckets(table).map(|(hash, _)| hash));
        hashes.sort_unstable();
        Some(longest_run(&hashes))
    };
    // The table of a hash is that of its lowest byte.
    (0..256).filter_map(run).max()
}

/// The length of the longest run of equal words.
fn longest_run(words: &[u32]) -> u64 {
    let (mut longest, mut run, mut before) = (0, 0, None);
    for word in words {
        run = if before == Some(word) { run + 1 } else { 1 };
        longest = longest.max(run);
        before = Some(word);
    }
    longest
}

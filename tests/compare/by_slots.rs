// The refusal of a put by whatever slots are lent, written from docs/FORMAT.md ("The index, and a put that probes it") in plain Rust.
use crate::archive::{Counts, Record};

const HEAD: u64 = 2072;
const LARGEST: u64 = 4_294_967_295;

fn word(bytes: &[u8], at: usize) -> Option<u32> {
    Some(u32::from_le_bytes(bytes.get(at..at + 4)?.try_into().expect("four bytes")))
}

// Has the entry at an offset this name? A broken one has none.
fn has_name(entries: &[u8], at: usize, name: &[u8]) -> bool {
    let length = word(entries, at + 4).unwrap_or(0) as usize;
    length > 0 && entries.get(at + 8..at + 7 + length) == Some(name)
}

// The finished size after the put: in two-way mode with the back array.
fn size_after(record: &Record, name: &[u8], id: u32) -> u64 {
    let back = if record.mode == 0 { u64::from(record.back).max(u64::from(id) + 1) } else { 0 };
    record.end + name.len() as u64 + 9 + 16 * (u64::from(record.entries) + 1) + 4 * back
}

/// 0 where the put is accepted. `hash` is the name's.
pub fn refusal(record: &Record, counts: &Counts, buf: &[u8], slots: &[u32], (name, hash): (&[u8], u32), id: u32) -> u32 {
    let length = buf.len() as u64;
    if record.mode > 1 || record.repeats > 1 || record.length != length || record.end < HEAD || record.end > length {
        return 2;
    }
    if name.contains(&0) {
        return 13;
    }
    let size = size_after(record, name, id);
    let late = if size > length || size > LARGEST {
        3
    } else if counts[hash as usize % 256] == u32::MAX {
        2
    } else {
        0
    };
    if record.repeats == 1 {
        return late;
    }
    let m = slots.len() / 2;
    let sequence: Vec<usize> = (0..m).map(|i| (hash as usize / 256 + i) % m).take_while(|k| slots[2 * k + 1] != 0).collect();
    let entries = &buf[..record.end as usize];
    let duplicate = |k: &usize| slots[2 * k] == hash && has_name(entries, slots[2 * k + 1] as usize, name);
    if sequence.iter().any(duplicate) {
        return 16;
    }
    if late == 0 && sequence.len() == m {
        return 24;
    }
    late
}

// Writer records, table counts and buffers that no call leaves: each is a small change of one that a call left.
use crate::archive::Counts;
use crate::original::Put;
use crate::rules::{word, HEAD};
use crate::seed::Random;
use crate::writing::{self, State};

// One number of the record, some counts, the buffer's length, or an entry.
pub fn state(random: &mut Random, s: &mut State) {
    let near = |random: &mut Random, old: u64| match random.below(6) {
        0 => old.wrapping_add(1),
        1 => old.wrapping_sub(1),
        2 => random.pick(&[0, 1, 2071, 2072, 0x7fff_ffff_ffff_ffff, u64::MAX]),
        3 => old.wrapping_add(random.below(60) as u64),
        4 => random.next(),
        _ => old.wrapping_sub(random.below(60) as u64),
    };
    let t = random.below(256);
    match random.below(14) {
        0 => s.record.length = near(random, s.record.length),
        1 => s.record.end = near(random, s.record.end),
        2 => s.record.entries = near(random, s.record.entries as u64) as u32,
        3 => s.record.entries = random.pick(&[0xffff_ffff, 0xffff_fffe, 0x1000_0000, 0x0fff_ffff]),
        4 => s.record.back = near(random, s.record.back as u64) as u32,
        5 => s.record.back = random.pick(&[0, 0xffff_ffff, 0x4000_0000, 0x3fff_ffff]),
        6 => s.record.mode = random.pick(&[0, 1, 1 - s.record.mode.min(1), 2, 0xffff_ffff]),
        7 => s.counts[t] = random.pick(&[0, 1, s.record.entries, s.record.entries.wrapping_add(1), u32::MAX]),
        8 => move_count(random, &mut s.counts),
        9 => other_length(random, s),
        10 => s.record.repeats = random.pick(&[0, 1, 1 - s.record.repeats.min(1), 2, 0xffff_ffff]),
        _ => spoil_entry(random, s),
    }
}

// One count is raised and another lowered: the sum stays, and often no count exceeds the entries.
fn move_count(random: &mut Random, counts: &mut Counts) {
    let (from, to) = (counts.iter().position(|&count| count > 0), random.below(256));
    if let Some(from) = from {
        counts[from] -= 1;
        counts[to] = counts[to].wrapping_add(1);
    }
}

// The buffer cut or grown, with and without the record's length.
fn other_length(random: &mut Random, s: &mut State) {
    let length = match random.below(4) {
        0 => s.buf.len().saturating_sub(1),
        1 => s.buf.len() + 1,
        2 => random.pick(&[0, 1, 2071, 2072]),
        _ => (s.record.end.min(1 << 16) as usize + random.below(40)).saturating_sub(20),
    };
    s.buf.resize(length, 0x5a);
    if random.once_in(2) {
        s.record.length = length as u64;
    }
}

// An entry's length word, id, name or zero byte. An id of 4294967295 comes with the back size that its sum would wrap to.
fn spoil_entry(random: &mut Random, s: &mut State) {
    let (end, starts) = (s.record.end as usize, entry_starts(s));
    if starts.is_empty() {
        return;
    }
    let at = starts[random.below(starts.len())];
    let length = word(&s.buf, at + 4);
    let near = [0, 1, length + 1, length - 1, (end - at - 8) as u32, (end - at - 7) as u32, u32::MAX, random.word()];
    let ids = [0, 1, 5, s.record.back, random.word()];
    match random.below(6) {
        0 | 1 => s.buf[at + 4..at + 8].copy_from_slice(&random.pick(&near).to_le_bytes()),
        2 => s.buf[at + 7 + length as usize] = 1 + random.below(255) as u8,
        3 => s.buf[at..at + 4].copy_from_slice(&ids[random.below(5)].to_le_bytes()),
        4 => {
            s.buf[at..at + 4].copy_from_slice(&u32::MAX.to_le_bytes());
            s.record.back = if starts.len() == 1 || random.once_in(2) { 0 } else { s.record.back };
        }
        _ => s.buf[at + 8 + random.below(length as usize)] ^= 1 << random.below(8),
    }
}

fn entry_starts(s: &State) -> Vec<usize> {
    let mut at = HEAD;
    let sizes = writing::entries(s).unwrap_or_default();
    let size = |(name, _): &Put| name.len() + 9;
    sizes.iter().map(|put| { at += size(put); at - size(put) }).collect()
}

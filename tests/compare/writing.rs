// The rules for writing of 01, 02 (v) and 02 (viii), written a second time, straight from their paragraphs: the record, what
// fits, the refusals of put and close, and what they leave. All sums have 128 bits. The rules share no line with the product.
#![allow(dead_code)]
use crate::archive::{Counts, Record};
use crate::original::Put;
use crate::rules::{hash, HEAD};

/// The record, its table counts, and the buffer: what a call is lent and leaves.
#[derive(Clone, PartialEq)]
pub struct State {
    pub record: Record,
    pub counts: Counts,
    pub buf: Vec<u8>,
}

fn oneway(record: &Record) -> bool {
    record.mode == 1
}

/// A fresh record: the mode, repeats off (0) or on (1), the buffer's length, end 2,072 and otherwise zeros; or 1.
pub fn begin(mode: u32, repeats: u32, length: usize) -> Result<Record, u32> {
    if mode > 1 || repeats > 1 {
        return Err(2);
    }
    if length < HEAD {
        return Err(1);
    }
    Ok(Record { mode, repeats, entries: 0, back: 0, length: length as u64, end: HEAD as u64 })
}

/// A record fits when the lengths agree, 2,072 <= end <= length, and no table count exceeds the entries. A record with a mode
/// or a choice about repeats that the papers do not know fits nothing.
pub fn fits(s: &State) -> bool {
    s.record.mode <= 1
        && s.record.repeats <= 1
        && s.record.length == s.buf.len() as u64
        && s.record.end >= HEAD as u64
        && s.record.end <= s.record.length
        && s.counts.iter().all(|&count| count <= s.record.entries)
}

// The finished size: end + 16 x entries + 4 x back size, the last 0 in one-way mode.
fn finished(oneway: bool, end: u128, entries: u128, back: u128) -> u128 {
    end + 16 * entries + if oneway { 0 } else { 4 * back }
}

fn too_large(s: &State, size: u128) -> bool {
    size > s.buf.len() as u128 || size > 4_294_967_295
}

/// With repeats off a put walks the earlier entries: 4 where these fail close's checks of entries, counts or back size,
/// otherwise 16 where one has this name.
fn earlier(s: &State, name: &[u8]) -> Result<(), u32> {
    match entries(s) {
        Some(puts) if agree(s, &puts) && puts.iter().any(|put| put.0 == name) => Err(16),
        Some(puts) if agree(s, &puts) => Ok(()),
        _ => Err(4),
    }
}

/// The record after an accepted put of a name; or 2, then 13 for a zero byte in the name, then what the earlier entries make
/// due, then 3.
pub fn put_record(s: &State, name: &[u8], id: u32) -> Result<Record, u32> {
    if !fits(s) {
        return Err(2);
    }
    if name.contains(&0) {
        return Err(13);
    }
    if s.record.repeats == 0 {
        earlier(s, name)?;
    }
    let r = s.record;
    if too_large(s, size_with(&r, name.len(), id)) {
        return Err(3);
    }
    let back = back_with(&r, id) as u32;
    Ok(Record { end: r.end + name.len() as u64 + 9, entries: r.entries + 1, back, ..r })
}

// The back size after a put.
fn back_with(r: &Record, id: u32) -> u128 {
    if oneway(r) { r.back as u128 } else { (r.back as u128).max(id as u128 + 1) }
}

/// The finished size after a put of an id and a name of this length.
pub fn size_with(r: &Record, name_len: usize, id: u32) -> u128 {
    finished(oneway(r), r.end as u128 + name_len as u128 + 9, r.entries as u128 + 1, back_with(r, id))
}

/// What a put leaves: one more entry and the counts raised; or its refusal.
pub fn put(s: &State, name: &[u8], id: u32) -> Result<State, u32> {
    let record = put_record(s, name, id)?;
    let mut after = State { record, ..s.clone() };
    after.counts[hash(name) as usize % 256] += 1;
    let entry = [&id.to_le_bytes()[..], &(name.len() as u32 + 1).to_le_bytes(), name, &[0]].concat();
    after.buf[s.record.end as usize..record.end as usize].copy_from_slice(&entry);
    Ok(after)
}

/// The recorded number of whole entries, where the bytes from 2,072 to end are these.
pub fn entries(s: &State) -> Option<Vec<Put>> {
    let mut rest = s.buf.get(HEAD..s.record.end as usize)?;
    let mut found = Vec::new();
    for _ in 0..s.record.entries {
        let word = |at: usize| Some(u32::from_le_bytes(rest.get(at..at + 4)?.try_into().ok()?));
        let (id, length) = (word(0)?, word(4)? as usize);
        let (name, last) = rest.get(8..8 + length)?.split_at(length.checked_sub(1)?);
        if last != [0] {
            return None;
        }
        found.push((name.to_vec(), id));
        rest = &rest[8 + length..];
    }
    rest.is_empty().then_some(found)
}

// Do the entries have the record's table counts and back size?
fn agree(s: &State, entries: &[Put]) -> bool {
    let mut counts = [0u32; 256];
    for (name, _) in entries {
        counts[hash(name) as usize % 256] += 1;
    }
    let largest = entries.iter().map(|put| put.1 as u64 + 1).max().unwrap_or(0);
    let back = if oneway(&s.record) { 0 } else { largest };
    counts == s.counts && back == s.record.back as u64
}

/// The size that close gives and the entries that it writes tables for; or 2, or 4.
pub fn close(s: &State) -> Result<(u32, Vec<Put>), u32> {
    if !fits(s) {
        return Err(2);
    }
    let r = &s.record;
    let size = finished(oneway(r), r.end as u128, r.entries as u128, r.back as u128);
    match entries(s) {
        Some(puts) if agree(s, &puts) && !too_large(s, size) => Ok((size as u32, puts)),
        _ => Err(4),
    }
}

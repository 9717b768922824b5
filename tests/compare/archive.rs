// The archive's functions, declared once for the Rust crate and for the comparisons; a put by value; and the two answers that are
// compared most, as a caller wants them.
#![allow(dead_code)]
#[path = "../../rust/src/archive.rs"]
mod calls;

pub use calls::*;

/// One put, with the record to go on with.
pub fn put(mut record: Record, counts: &mut Counts, buf: &mut [u8], name: &[u8], id: u32) -> RecordAnswer {
    let refusal = put_in(&mut record, counts, buf, name, id);
    RecordAnswer { refusal, record }
}

/// The id that a lookup found.
pub fn found_id(image: &[u8], name: &[u8]) -> Option<u32> {
    let answer = to_id(image, name);
    (answer.found == 1).then_some(answer.id)
}

/// The name that an id has.
pub fn named(image: &[u8], id: u32) -> Option<&[u8]> {
    let answer = to_str(image, id);
    (answer.found == 1).then(|| &image[answer.start as usize..][..answer.len as usize])
}

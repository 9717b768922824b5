//! A load anyone can rebuild.
use crate::archive;
use crate::refusal::{self, Refusal};

/// The size of a load with all its entries, which is the same for every seed.
const SIZE: usize = 157_720;

/// The image of a seed, with 4,096 entries, to test and measure with. A step takes a state s to 1664525 × s + 1013904223 modulo
/// 2^32, and the first state is the seed. Entry i, from 0, has id i and the name `P` followed by the state after step i + 1 in
/// eight uppercase hexadecimal digits. The entries are put two-way, and repeated names would be taken.
///
/// ```
/// # fn main() -> std::io::Result<()> {
/// let image = cqdb::load(0);
/// let db = cqdb::CQDB::new(&image)?;
/// assert_eq!((image.len(), db.num()), (157_720, 4_096));
/// assert_eq!(db.to_id("P3C6EF35F"), Some(0));
/// # Ok(())
/// # }
/// ```
pub fn load(seed: u32) -> Vec<u8> {
    let mut image = vec![0; SIZE];
    let entries = load_in(seed, &mut image).expect("more than 2,072 bytes");
    assert_eq!(entries, 4_096, "room for every entry");
    image
}

/// The load of a seed in a buffer, which may have room for fewer entries: they are put until one finds no room. Gives their
/// number n; the first 2,072 + 38 n bytes are the image, and those behind it keep their content. Refused with
/// [`Refusal::TooShort`], and nothing is written, where the buffer has fewer than 2,072 bytes.
pub fn load_in(seed: u32, buf: &mut [u8]) -> Result<u32, Refusal> {
    let answer = archive::load(seed, buf);
    refusal::or(answer.refusal, answer.accepted)
}

//! A whole list in one call.
use std::collections::HashSet;

use crate::archive::{self, Packed};
use crate::flag::Flag;
use crate::refusal::{self, Refusal};
use crate::write::{MemoryWriter, LIMIT};
use crate::zeros::zeros;

/// The image of a whole list, with the refusal of each put that was refused.
#[derive(Clone, Debug, PartialEq, Eq)]
#[must_use = "the image of a list is what it was built for"]
pub struct Built {
    /// The finished image of the accepted puts.
    pub image: Vec<u8>,
    /// How many puts were accepted.
    pub accepted: u32,
    /// The place in the list, counted from 0, and the refusal of each put that was refused.
    pub refused: Vec<(usize, Refusal)>,
}

impl MemoryWriter {
    /// The image of a whole list of names and ids: the puts in order and one close, in time that grows with the list. A
    /// name that the list holds before is refused with [`Refusal::Repeated`], one with a zero byte with
    /// [`Refusal::ZeroByte`], and the rest are accepted, as by single puts.
    ///
    /// ```
    /// use cqdb::{Flag, MemoryWriter, Refusal, CQDB};
    ///
    /// # fn main() -> std::io::Result<()> {
    /// let built = MemoryWriter::build(Flag::NONE, [("north wall", 0), ("crane", 1), ("crane", 2)])?;
    /// assert_eq!(built.accepted, 2);
    /// assert_eq!(built.refused, [(2, Refusal::Repeated)]);
    /// assert_eq!(CQDB::new(&built.image)?.to_id("crane"), Some(1));
    /// # Ok(())
    /// # }
    /// ```
    pub fn build<K: AsRef<[u8]>>(flag: Flag, list: impl IntoIterator<Item = (K, u32)>) -> Result<Built, Refusal> {
        build(flag, REPEATS_OFF, list)
    }

    /// The same where a name may be put again, as by a writer [`with_repeats`](Self::with_repeats).
    /// A name that is put k times takes k²/2 steps, as in a close: equal names have one probe sequence in the image.
    pub fn build_with_repeats<K: AsRef<[u8]>>(
        flag: Flag,
        list: impl IntoIterator<Item = (K, u32)>,
    ) -> Result<Built, Refusal> {
        build(flag, REPEATS_ON, list)
    }
}

const REPEATS_OFF: u32 = 0;
const REPEATS_ON: u32 = 1;

fn build<K: AsRef<[u8]>>(flag: Flag, repeats: u32, list: impl IntoIterator<Item = (K, u32)>) -> Result<Built, Refusal> {
    let (mut names, mut ends, mut ids) = (Vec::new(), Vec::new(), Vec::new());
    for (name, id) in list {
        names.extend_from_slice(name.as_ref());
        ends.push(names.len() as u64);
        ids.push(id);
    }
    let needs = archive::build_needs(flag.bits(), names.len(), &ids);
    let packed = Packed { names: &names, ends: &ends, ids: &ids };
    let length = needed(flag, packed, repeats).min(LIMIT);
    let mut image = zeros(length as usize).ok_or(Refusal::NoRoom)?;
    let (mut refusals, mut scratch) = (vec![0; ids.len()], vec![0; needs.words as usize]);
    let answer = archive::build(flag.bits(), repeats, &mut image, packed, &mut refusals, &mut scratch);
    image.truncate(answer.size as usize);
    let refused =
        refusals.iter().enumerate().filter_map(|(i, &k)| refusal::or(k, ()).err().map(|why| (i, why))).collect();
    refusal::or(answer.refusal, Built { image, accepted: answer.accepted, refused })
}

/// The bytes that the list needs, or more. A put that is refused for its name, or for an id that fits into no image, needs no
/// back array: the ids of such puts are left out where the array would be larger than the rest of the image.
fn needed(flag: Flag, list: Packed<'_>, repeats: u32) -> u64 {
    let bytes = |flag: Flag, names: usize, ids: &[u32]| archive::build_needs(flag.bits(), names, ids).bytes;
    let whole = bytes(flag, list.names.len(), list.ids);
    if whole <= 2 * bytes(Flag::ONEWAY, list.names.len(), list.ids) {
        return whole;
    }
    let starts = [0].iter().chain(list.ends);
    let names = starts.zip(list.ends).map(|(start, end)| &list.names[*start as usize..*end as usize]);
    let mut held = HashSet::new();
    let mut may_be_accepted = |name, id| {
        let fits = bytes(flag, <[u8]>::len(name), &[id]) <= LIMIT;
        !name.contains(&0) && fits && (held.insert(name) || repeats == REPEATS_ON)
    };
    let ids: Vec<u32> =
        names.zip(list.ids).map(|(name, id)| if may_be_accepted(name, *id) { *id } else { 0 }).collect();
    bytes(flag, list.names.len(), &ids)
}

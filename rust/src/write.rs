//! Writing an image in memory.
use std::fmt;

use crate::archive::{self, Counts, Record};
use crate::flag::Flag;
use crate::puts::Puts;
use crate::refusal::{self, Refusal};
use crate::zeros::zeros;

/// The length of the first buffer; it grows as needed.
const FIRST: usize = 4_096;
/// The choice of repeats, as the record has it.
const REPEATS_OFF: u32 = 0;
const REPEATS_ON: u32 = 1;
/// The names that the first index is for. The next one is for four times as many, or from some size on for twice as many.
const FIRST_NAMES: u32 = 64;
const MANY_NAMES: u32 = 65_536;
/// A buffer that has to become so many times as long is taken anew.
const LEAP: usize = 4;
/// The size of the largest image.
pub(crate) const LIMIT: u64 = 4_294_967_295;

/// Builds an image in memory. [`CQDBWriter`](crate::CQDBWriter) writes one to a stream.
///
/// ```
/// # fn main() -> Result<(), cqdb::Refusal> {
/// let mut writer = cqdb::MemoryWriter::new();
/// writer.put("north wall", 0)?;
/// let image: Vec<u8> = writer.finish()?;
/// assert_eq!(image.len(), 2_072 + 25 + 10 + 4);
/// # Ok(())
/// # }
/// ```
///
/// A writer that is thrown away is a warning, and so is its image:
///
/// ```compile_fail
/// #![deny(unused_must_use)]
/// cqdb::MemoryWriter::new();
/// ```
///
/// ```compile_fail
/// #![deny(unused_must_use)]
/// cqdb::MemoryWriter::new().finish();
/// ```
#[derive(Clone)]
#[must_use = "a writer has to be given its names, and finish gives the image"]
pub struct MemoryWriter {
    buffer: Vec<u8>,
    record: Record,
    counts: Counts,
    /// The index of the entries, where repeats are off: right whenever no call is under way.
    index: Option<Index>,
}

/// The slots of an index, and the number of names up to which half of them stay empty.
#[derive(Clone)]
struct Index {
    slots: Vec<u32>,
    names: u32,
}

impl MemoryWriter {
    /// A writer of a two-way image.
    pub fn new() -> Self {
        Self::with_flag(Flag::NONE)
    }

    /// A writer of a two-way or one-way image.
    pub fn with_flag(flag: Flag) -> Self {
        Self::begin(flag, REPEATS_OFF, Some(Index::new()))
    }

    /// A writer that takes a name that it holds already, as for a prism that is renewed under another id.
    pub fn with_repeats(flag: Flag) -> Self {
        Self::begin(flag, REPEATS_ON, None)
    }

    fn begin(flag: Flag, repeats: u32, index: Option<Index>) -> Self {
        let buffer = vec![0; FIRST];
        let mut counts = [0; 256];
        let begun = archive::begin(flag.bits(), repeats, &mut counts, &buffer);
        // The entries of a fresh writer end where the first will stand.
        let is_fresh = begun.refusal == 0 && begun.record.end == archive::HEAD as u64;
        assert!(is_fresh, "begin accepts every buffer of 2,072 bytes or more");
        MemoryWriter { buffer, record: begun.record, counts, index }
    }

    /// Puts a name, any bytes but 0, under an id. A name gives the id of its first put, and an id gives the name of its last.
    /// Refused, and nothing changes, with [`Refusal::ZeroByte`] when the name has a zero byte; else with
    /// [`Refusal::Repeated`] when the writer holds the name, unless it was made by [`with_repeats`](Self::with_repeats); else
    /// with [`Refusal::NoRoom`] when the image would exceed 4,294,967,295 bytes; a two-way image has four bytes for each id up
    /// to the largest. Also with [`Refusal::NoRoom`], or with [`Refusal::IndexFull`], where memory for a larger buffer or index
    /// cannot be had.
    pub fn put<K: AsRef<[u8]>>(&mut self, name: K, id: u32) -> Result<(), Refusal> {
        let name = name.as_ref();
        match self.put_here(name, id) {
            Err(Refusal::NoRoom) if self.grow(name.len(), id) => self.put_here(name, id),
            answer => answer,
        }
    }

    /// The place, counted from 0, of the name's put among the accepted ones. None where the writer does not hold the
    /// name, or takes repeats. The time grows with the place.
    ///
    /// ```
    /// # fn main() -> Result<(), cqdb::Refusal> {
    /// let mut writer = cqdb::MemoryWriter::new();
    /// writer.put("north wall", 0)?;
    /// writer.put("crane", 7)?;
    /// assert_eq!((writer.place_of(b"crane"), writer.place_of(b"mole")), (Some(1), None));
    /// # Ok(())
    /// # }
    /// ```
    pub fn place_of(&self, name: &[u8]) -> Option<u32> {
        self.index.as_ref()?;
        let place = Puts::new(&self.buffer, self.record.entries).position(|(held, _)| held == name)?;
        Some(place as u32)
    }

    /// The bytes of the entries from an offset on, which is an entry's or the end's.
    pub(crate) fn entries_from(&self, offset: usize) -> &[u8] {
        &self.buffer[offset..self.record.end as usize]
    }

    /// The size that the finished image would have after a put of an id and a name of this length, also where no image can have
    /// it: the largest number for a name of 4,294,967,295 bytes or more.
    ///
    /// ```
    /// let writer = cqdb::MemoryWriter::new();
    /// assert_eq!(writer.size_with("north wall".len(), 0), 2_072 + 25 + 10 + 4);
    /// ```
    pub fn size_with(&self, name_len: usize, id: u32) -> u64 {
        archive::size_with(&self.record, name_len, id)
    }

    /// Closes the writer and gives the finished image.
    pub fn finish(mut self) -> Result<Vec<u8>, Refusal> {
        let closed = archive::close(self.record, &self.counts, &mut self.buffer);
        self.buffer.truncate(closed.size as usize);
        refusal::or(closed.refusal, self.buffer)
    }

    fn put_here(&mut self, name: &[u8], id: u32) -> Result<(), Refusal> {
        let slots: &mut [u32] = match &mut self.index {
            Some(index) => {
                if index.names <= self.record.entries {
                    index.enlarge(self.record, &self.counts, &self.buffer);
                }
                &mut index.slots
            }
            // With repeats on a put looks for no name, and needs no slots.
            None => &mut [],
        };
        let refusal = archive::put_indexed(&mut self.record, &mut self.counts, &mut self.buffer, slots, name, id);
        refusal::or(refusal, ())
    }

    /// Takes a larger buffer with the same entries, if one can hold the image after this put. The writer is then as if
    /// it had begun with that buffer. The archive decides whether the put is accepted there.
    fn grow(&mut self, name_len: usize, id: u32) -> bool {
        let needed = self.size_with(name_len, id);
        if needed > LIMIT {
            return false;
        }
        let length = (needed + needed / 8).min(LIMIT);
        let grown = archive::grown(self.record, length);
        if grown.refusal != 0 || !self.lengthen(length as usize) {
            return false;
        }
        self.record = grown.record;
        true
    }

    /// Makes the buffer so long, with zeros behind the entries, if memory can be had.
    fn lengthen(&mut self, length: usize) -> bool {
        let end = self.record.end as usize;
        if length / LEAP > self.buffer.len() {
            // One large id: fresh pages are zero, and cost nothing until they are written to.
            let Some(mut larger) = zeros(length) else { return false };
            larger[..end].copy_from_slice(&self.buffer[..end]);
            self.buffer = larger;
            return true;
        }
        // The vector asks for twice its memory, which moves large blocks without a copy. It is cleared, and so taken from the
        // system, only as far as the image needs it soon.
        let more = length - self.buffer.len();
        let room = self.buffer.try_reserve(more).or_else(|_| self.buffer.try_reserve_exact(more));
        if room.is_ok() {
            self.buffer.resize(length, 0);
        }
        room.is_ok()
    }
}

impl Index {
    /// The index of a writer without entries: zeros.
    fn new() -> Self {
        Index { slots: vec![0; archive::index_words(FIRST_NAMES as usize)], names: FIRST_NAMES }
    }

    /// Makes the index anew, for more names. Where memory cannot be had it stays as it is, with empty slots left.
    #[cold]
    fn enlarge(&mut self, record: Record, counts: &Counts, buffer: &[u8]) {
        let names = self.names.saturating_mul(if self.names < MANY_NAMES { 4 } else { 2 });
        let words = archive::index_words(names as usize);
        if self.slots.try_reserve_exact(words - self.slots.len()).is_ok() {
            self.slots.resize(words, 0);
            let refusal = archive::index(record, counts, buffer, &mut self.slots);
            assert_eq!(refusal, 0, "record, counts and buffer are the writer's own");
            self.names = names;
        }
    }
}

impl Default for MemoryWriter {
    fn default() -> Self {
        Self::new()
    }
}

impl fmt::Debug for MemoryWriter {
    fn fmt(&self, f: &mut fmt::Formatter<'_>) -> fmt::Result {
        f.debug_struct("MemoryWriter").field("record", &self.record).finish_non_exhaustive()
    }
}

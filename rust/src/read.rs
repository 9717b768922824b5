//! Reading an image.
use std::iter::FusedIterator;
use std::{fmt, io};

use crate::archive::{self, Date, StrAnswer, Window};
use crate::average::Average;
use crate::name::BStr;
use crate::one_to_one::OneToOne;
use crate::page::Page;
use crate::puts::{name_of, Puts};
use crate::refusal::{self, Refusal};

/// What a lookup finds.
#[derive(Clone, Copy, Debug, PartialEq, Eq)]
pub struct Found {
    /// The id of the name.
    pub id: u32,
    /// The offset in the bucket that decides: there stands the entry with this id and name.
    pub offset: u32,
}

/// An opened image.
#[derive(Clone, Copy)]
pub struct CQDB<'a> {
    image: &'a [u8],
    num: u32,
}

impl<'a> CQDB<'a> {
    /// Opens an image; bytes may follow it. The error holds the [`Refusal`](crate::Refusal).
    pub fn new(image: &'a [u8]) -> io::Result<Self> {
        let answer = archive::open(image);
        Ok(refusal::or(answer.refusal, CQDB { image, num: answer.num })?)
    }

    /// An image that the archive has opened.
    pub(crate) fn opened(image: &'a [u8], num: u32) -> Self {
        CQDB { image, num }
    }

    /// The bytes that were opened.
    #[inline]
    pub fn bytes(&self) -> &'a [u8] {
        self.image
    }

    /// The number of associations.
    #[inline]
    pub fn num(&self) -> u32 {
        self.num
    }

    /// How many ids the back array has: the largest id that was put, plus 1. It is 0 where no id can have a name, as in a
    /// one-way image.
    pub fn back_size(&self) -> u32 {
        archive::size_hint(self.image, 0)
    }

    /// The id of a name, of its first put.
    #[inline]
    pub fn to_id(&self, name: &str) -> Option<u32> {
        self.to_id_bytes(name.as_bytes())
    }

    /// The id of a name that may be any bytes.
    #[inline]
    pub fn to_id_bytes(&self, name: &[u8]) -> Option<u32> {
        self.lookup(name).0.map(|found| found.id)
    }

    /// The id of a name and where its entry stands, and the number of buckets that the search reads, the one that decides
    /// included.
    #[inline]
    pub fn lookup(&self, name: &[u8]) -> (Option<Found>, u32) {
        let answer = archive::to_id(self.image, name);
        let found = Found { id: answer.id, offset: answer.offset };
        ((answer.found == 1).then_some(found), answer.buckets)
    }

    /// The name of an id, of its last put. A one-way image names none.
    #[inline]
    pub fn to_str(&self, id: u32) -> Option<&'a BStr> {
        self.part(archive::to_str(self.image, id))
    }

    /// The name of an id up to its first zero byte, as a C string is read; all of it where it has none.
    #[inline]
    pub fn panel(&self, id: u32) -> Option<&'a BStr> {
        self.part(archive::panel(self.image, id))
    }

    /// Does [`panel`](CQDB::panel) give the whole name for every id? It does in every image that
    /// a writer of this crate makes.
    pub fn readings_agree(&self) -> bool {
        archive::readings_agree(self.image) == 1
    }

    /// The name of an id on a date: [`to_str`](CQDB::to_str)'s where some window of this id holds the date, first date
    /// included, end date not; otherwise none. All windows are checked, also those of other ids. Refused with
    /// [`Refusal::NoSuchDate`] where a date does not exist or is out of bounds, then with [`Refusal::NotBeforeEnd`] where a
    /// window does not start before its end.
    ///
    /// ```
    /// use cqdb::{BStr, Date, MemoryWriter, Window, CQDB};
    ///
    /// # fn main() -> std::io::Result<()> {
    /// let mut writer = MemoryWriter::new();
    /// writer.put("crane", 1)?;
    /// let image = writer.finish()?;
    /// let db = CQDB::new(&image)?;
    /// let date = |month, day| Date { year: 2024, month, day };
    /// let spring = Window { id: 1, first: date(3, 1), end: date(6, 1) };
    /// assert_eq!(db.name_on(1, date(5, 31), &[spring])?, Some(BStr::new("crane")));
    /// assert_eq!(db.name_on(1, date(6, 1), &[spring])?, None);
    /// # Ok(())
    /// # }
    /// ```
    pub fn name_on(&self, id: u32, date: Date, windows: &[Window]) -> Result<Option<&'a BStr>, Refusal> {
        let answer = archive::name_on(self.image, id, date, windows);
        let place = StrAnswer { found: answer.found, len: answer.len, start: answer.start };
        refusal::or(answer.refusal, self.part(place))
    }

    #[inline]
    pub(crate) fn part(&self, answer: StrAnswer) -> Option<&'a BStr> {
        let (start, len) = (answer.start as usize, answer.len as usize);
        (answer.found == 1).then(|| BStr::new(&self.image[start..start + len]))
    }

    /// Does the id have a name, and does some entry that the search for that name meets have this name and this id? In an
    /// image of a writer every id that has a name is home.
    pub fn home(&self, id: u32) -> bool {
        archive::home(self.image, id) == 1
    }

    /// Are these bytes the image that some list of puts closes to, one-way or two-way, repeats allowed, with no byte after it?
    /// Every image that a writer of this crate makes is. Two different lists of puts in one direction never make
    /// the same image, so owners may compare images by their bytes. The time is linear in the bytes apart from the probing.
    pub fn is_canonical(&self) -> bool {
        archive::canonical(self.image) == 1
    }

    /// The puts of a canonical image, in put order; nothing where it is not canonical, which is asked first.
    pub fn puts(&self) -> Option<Puts<'a>> {
        self.is_canonical().then(|| Puts::new(self.image, self.num))
    }

    /// The name and the id of the entry at an offset, as [`lookup`](CQDB::lookup), [`one_to_one`](CQDB::one_to_one) and
    /// [`buckets`](CQDB::buckets) give it; nothing where no whole entry stands there.
    ///
    /// ```
    /// # fn main() -> std::io::Result<()> {
    /// let image = cqdb::load(0);
    /// let db = cqdb::CQDB::new(&image)?;
    /// let found = db.lookup(b"P3C6EF35F").0.expect("the first name of the load");
    /// assert_eq!(db.entry(found.offset), Some((cqdb::BStr::new("P3C6EF35F"), 0)));
    /// # Ok(())
    /// # }
    /// ```
    pub fn entry(&self, offset: u32) -> Option<(&'a BStr, u32)> {
        let entry = archive::entry(self.image, offset);
        (entry.found == 1).then(|| (name_of(self.image, entry), entry.id))
    }

    /// The hash and the entry's offset in each filled bucket of the table in which names of this hash are sought: the table of
    /// the hash modulo 256.
    pub fn buckets(&self, hash: u32) -> impl Iterator<Item = (u32, u32)> + 'a {
        let table = archive::table(self.image, hash);
        let buckets = &self.image[table.start as usize..][..8 * table.buckets as usize];
        let word = |bytes: &[u8]| u32::from_le_bytes(bytes.try_into().expect("four bytes"));
        buckets.chunks_exact(8).map(move |pair| (word(&pair[..4]), word(&pair[4..]))).filter(|(_, offset)| *offset > 0)
    }

    /// How many bytes the image says that it has. Opening does not check it.
    pub fn size_word(&self) -> u32 {
        Header::of(self.image).size
    }

    /// 0 where the image says that it is two-way, 1 where it says that it is one-way. Opening does not check it.
    pub fn flag_word(&self) -> u32 {
        Header::of(self.image).flag
    }

    /// Are names and ids one to one? They are where the name of every entry finds its id and, in a two-way image, its id gives its
    /// name; otherwise the answer is the first entry, in put order, that fails. Refused with [`Refusal::NotCanonical`] where
    /// [`CQDB::is_canonical`] says no.
    ///
    /// ```
    /// use cqdb::{BStr, MemoryWriter, Mismatch, OneToOne, CQDB};
    ///
    /// # fn main() -> std::io::Result<()> {
    /// let mut writer = MemoryWriter::new();
    /// writer.put("crane", 0)?;
    /// writer.put("mole", 0)?;
    /// let image = writer.finish()?;
    /// let first = OneToOne::Fails { kind: Mismatch::OtherName, offset: 2_072, id: 0, name: BStr::new("crane") };
    /// assert_eq!(CQDB::new(&image)?.one_to_one()?, first);
    /// # Ok(())
    /// # }
    /// ```
    pub fn one_to_one(&self) -> Result<OneToOne<'a>, Refusal> {
        let answer = archive::one_to_one(self.image);
        refusal::or(answer.refusal, OneToOne::new(self.image, answer))
    }

    /// The average search length, to compare lists of names: how many buckets are read when the name of each entry is looked up,
    /// over the number of entries. A repeated name counts each time. Refused with [`Refusal::NotCanonical`] where
    /// [`CQDB::is_canonical`] says no, then with [`Refusal::NoEntries`].
    ///
    /// ```
    /// # fn main() -> std::io::Result<()> {
    /// let image = cqdb::load(0);
    /// let average = cqdb::CQDB::new(&image)?.average()?;
    /// assert_eq!((average.entries, average.quotient, average.remainder), (4_096, 1, 1_577));
    /// # Ok(())
    /// # }
    /// ```
    pub fn average(&self) -> Result<Average, Refusal> {
        let a = archive::average(self.image);
        refusal::or(a.refusal, Average { entries: a.entries, quotient: a.quotient, remainder: a.remainder })
    }

    /// How many entries are found after 1, 2, .. 15 buckets, and after 16 or more. Refused as [`CQDB::average`] is.
    pub fn lengths(&self) -> Result<[u32; 16], Refusal> {
        let mut counts = [0; 16];
        let refusal = archive::lengths(self.image, &mut counts);
        refusal::or(refusal, counts)
    }

    /// The printed catalogue.
    pub fn page(&self) -> Page<'a> {
        Page::new(self.image)
    }

    /// The ids and their names from id 0 on, up to the first id that has none.
    #[inline]
    pub fn iter(&self) -> Iter<'a> {
        Iter { db: *self, next: 0 }
    }
}

/// The words of the head, to be shown: no answer of a call rests on them as they are read here.
#[derive(Debug)]
#[allow(dead_code)]
struct Header {
    chunk_id: [u8; 4],
    size: u32,
    flag: u32,
    byteorder: u32,
    bwd_size: u32,
    bwd_offset: u32,
}

impl Header {
    /// Those of an opened image.
    fn of(image: &[u8]) -> Header {
        let four = |at: usize| -> [u8; 4] { image[at..at + 4].try_into().expect("an opened image has a head") };
        let word = |at: usize| u32::from_le_bytes(four(at));
        Header {
            chunk_id: four(0),
            size: word(4),
            flag: word(8),
            byteorder: word(12),
            bwd_size: word(16),
            bwd_offset: word(20),
        }
    }
}

impl fmt::Debug for CQDB<'_> {
    fn fmt(&self, f: &mut fmt::Formatter<'_>) -> fmt::Result {
        let header = Header::of(self.image);
        f.debug_struct("CQDB")
            .field("header", &header)
            .field("bwd_offset", &header.bwd_offset)
            .field("num", &self.num)
            .finish()
    }
}

/// A walk over the ids and names of an image. As with cqdb-rs each step is a `Result`; it is never an error.
#[derive(Clone, Debug)]
pub struct Iter<'a> {
    db: CQDB<'a>,
    next: u32,
}

impl<'a> Iterator for Iter<'a> {
    type Item = io::Result<(u32, &'a BStr)>;

    #[inline]
    fn next(&mut self) -> Option<Self::Item> {
        let id = self.next;
        let name = self.db.to_str(id)?;
        // An id that has a name is below the back size, and so below 4,294,967,295.
        self.next += 1;
        Some(Ok((id, name)))
    }

    fn size_hint(&self) -> (usize, Option<usize>) {
        (0, Some(archive::size_hint(self.db.image, self.next) as usize))
    }
}

// A walk that has ended stands before an id without a name, and stays there.
impl FusedIterator for Iter<'_> {}

impl<'a> IntoIterator for &CQDB<'a> {
    type Item = io::Result<(u32, &'a BStr)>;
    type IntoIter = Iter<'a>;

    #[inline]
    fn into_iter(self) -> Iter<'a> {
        self.iter()
    }
}

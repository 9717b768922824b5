//! The printed catalogue of an image.
use std::fmt;

use crate::archive;
use crate::refusal::{self, Refusal};

/// How many lines a part has.
const LINES: u32 = 1_024;

/// The printed catalogue of an image: a line of 45 bytes for every id below the back size, in rising order. The id stands
/// right-aligned in 10 bytes; then come a space, 32 bytes of the name, a plus sign where the name is longer or else a space,
/// and a line feed. Bytes outside 32 to 126 are printed as full stops. An id without a name has 32 hyphens.
///
/// The view holds the image and nothing else. `{}` prints the page to any [`fmt::Write`], and [`Page::parts`] gives its bytes
/// in parts, both with memory for some lines; [`Page::to_vec`] gives all of them.
///
/// ```
/// # fn main() -> std::io::Result<()> {
/// let mut writer = cqdb::MemoryWriter::new();
/// writer.put("north wall", 0)?;
/// writer.put("crane", 2)?;
/// let image = writer.finish()?;
/// let page = cqdb::CQDB::new(&image)?.page();
/// assert_eq!(page.len(), 3 * 45);
/// assert_eq!(
///     page.to_string(),
///     "         0 north wall                       \n\
///      \x20        1 -------------------------------- \n\
///      \x20        2 crane                            \n"
/// );
/// # Ok(())
/// # }
/// ```
#[derive(Clone, Copy)]
#[must_use = "a page does nothing until it is printed"]
pub struct Page<'a> {
    image: &'a [u8],
}

impl<'a> Page<'a> {
    /// The page of any bytes, opened as an image or not. It is empty where they have no back array that can be read.
    pub fn new(image: &'a [u8]) -> Self {
        Page { image }
    }

    /// The number of bytes: 45 for every id below the back size.
    pub fn len(&self) -> u64 {
        archive::page_length(self.image)
    }

    /// Has the page no line?
    pub fn is_empty(&self) -> bool {
        self.len() == 0
    }

    /// Prints the page to the first bytes of `out` and gives its length; the bytes behind it keep their content. Refused
    /// with [`Refusal::PageTooLong`], and nothing is written, where `out` is shorter than the page.
    pub fn print(&self, out: &mut [u8]) -> Result<u64, Refusal> {
        let answer = archive::page(self.image, out);
        refusal::or(answer.refusal, answer.length)
    }

    /// Prints the lines of `count` ids from `first` on, of those below the back size, to the first bytes of `out`, and gives
    /// their length. Refused as [`Page::print`] is. Parts that follow each other, joined, are the page.
    pub fn print_part(&self, first: u32, count: u32, out: &mut [u8]) -> Result<u64, Refusal> {
        let answer = archive::page_part(self.image, first, count, out);
        refusal::or(answer.refusal, answer.length)
    }

    /// Gives the page in parts, one after the other, until one of the calls fails.
    ///
    /// ```
    /// let image = cqdb::load(0);
    /// let (page, mut bytes) = (cqdb::Page::new(&image), Vec::new());
    /// page.parts(|part| Ok::<(), ()>(bytes.extend_from_slice(part))).unwrap();
    /// assert_eq!(bytes, page.to_vec());
    /// ```
    pub fn parts<E>(&self, mut each: impl FnMut(&[u8]) -> Result<(), E>) -> Result<(), E> {
        let mut part = [0; LINES as usize * 45];
        let mut first = 0;
        loop {
            let length = self.print_part(first, LINES, &mut part).expect("room for so many lines");
            if length == 0 {
                return Ok(());
            }
            each(&part[..length as usize])?;
            // Behind the last id there is no line; the largest back size is 4,294,967,295.
            first = first.saturating_add(LINES);
        }
    }

    /// The bytes of the page.
    pub fn to_vec(&self) -> Vec<u8> {
        let mut bytes = vec![0; self.len() as usize];
        self.print(&mut bytes).expect("as many bytes as the page has");
        bytes
    }

    /// Writes the page, as `{}` does.
    pub fn write_to<W: fmt::Write + ?Sized>(&self, out: &mut W) -> fmt::Result {
        self.parts(|part| out.write_str(std::str::from_utf8(part).expect("bytes 32 to 126 and line feeds")))
    }
}

impl fmt::Display for Page<'_> {
    fn fmt(&self, f: &mut fmt::Formatter<'_>) -> fmt::Result {
        self.write_to(f)
    }
}

impl fmt::Debug for Page<'_> {
    fn fmt(&self, f: &mut fmt::Formatter<'_>) -> fmt::Result {
        f.debug_struct("Page").field("len", &self.len()).finish()
    }
}

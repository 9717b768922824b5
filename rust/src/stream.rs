//! Writing an image to a stream.
use std::fmt;
use std::io::{self, Seek, SeekFrom, Write};
use std::thread;

use crate::archive::HEAD;
use crate::flag::Flag;
use crate::write::MemoryWriter;

/// Writes an image to a stream, with the calls of cqdb-rs, at the place where the stream stood at the beginning. Each
/// accepted put writes its entry, so that an error of the stream comes out of that [`put`](CQDBWriter::put).
/// [`finish`](CQDBWriter::finish) writes the rest, the head last: a file that was not finished does not open. A stream that
/// has failed once is not written to again, and every later call says so.
///
/// A writer that is dropped is finished, as with cqdb-rs; where that fails, it is said on standard error, since nobody else
/// can be told. A writer that is dropped by a panic is not finished: half a list is never taken for a whole one.
///
/// ```
/// use cqdb::{CQDBWriter, CQDB};
/// use std::io::Cursor;
///
/// # fn main() -> std::io::Result<()> {
/// let mut writer = CQDBWriter::new(Cursor::new(Vec::new()))?;
/// writer.put("north wall", 0)?;
/// let image = writer.finish()?.into_inner();
/// assert_eq!(CQDB::new(&image)?.to_id("north wall"), Some(0));
/// # Ok(())
/// # }
/// ```
pub struct CQDBWriter<T: Write + Seek> {
    /// None once the image has been written.
    stream: Option<T>,
    begin: u64,
    image: MemoryWriter,
    /// How far the image has been written, head and entries; 0 before the first put.
    written: usize,
    /// What the stream said when it failed.
    failed: Option<(io::ErrorKind, String)>,
    /// Whether the thread was panicking when the writer was made, as in the drop of something else.
    in_panic: bool,
}

impl<T: Write + Seek> CQDBWriter<T> {
    /// A writer of a two-way image.
    pub fn new(stream: T) -> io::Result<Self> {
        Self::with_flag(stream, Flag::NONE)
    }

    /// A writer of a two-way or one-way image.
    pub fn with_flag(stream: T, flag: Flag) -> io::Result<Self> {
        Self::over(stream, MemoryWriter::with_flag(flag))
    }

    /// A writer that takes a name that it holds already, as cqdb-rs does.
    pub fn with_repeats(stream: T, flag: Flag) -> io::Result<Self> {
        Self::over(stream, MemoryWriter::with_repeats(flag))
    }

    fn over(mut stream: T, image: MemoryWriter) -> io::Result<Self> {
        let begin = stream.stream_position()?;
        Ok(CQDBWriter { stream: Some(stream), begin, image, written: 0, failed: None, in_panic: thread::panicking() })
    }

    /// Puts a name under an id, as [`MemoryWriter::put`] does, and writes its entry to the stream. The error of a refused put
    /// holds its [`Refusal`](crate::Refusal), and the writer goes on; after an error of the stream it does not.
    pub fn put<K: AsRef<[u8]>>(&mut self, name: K, id: u32) -> io::Result<()> {
        self.whole()?;
        self.image.put(name, id)?;
        self.write_entry().map_err(|error| self.fails(error))
    }

    /// Writes what is left of the image, flushes the stream and gives it back. It stands behind the image.
    pub fn finish(mut self) -> io::Result<T> {
        self.whole()?;
        self.write_rest().map_err(|error| self.fails(error))?;
        Ok(self.stream.take().expect("only finish and drop take it"))
    }

    /// The error of a stream that has failed.
    fn whole(&self) -> io::Result<()> {
        match &self.failed {
            None => Ok(()),
            Some((kind, text)) => Err(io::Error::new(*kind, format!("the stream failed before: {text}"))),
        }
    }

    /// The stream has failed, and is not written to again.
    fn fails(&mut self, error: io::Error) -> io::Error {
        self.failed = Some((error.kind(), error.to_string()));
        error
    }

    /// Writes the entry of the last put. Before the first one, zeros take the place of the head: where an older image stands,
    /// it opens no longer.
    fn write_entry(&mut self) -> io::Result<()> {
        let stream = self.stream.as_mut().expect("only finish and drop take it");
        if self.written == 0 {
            stream.write_all(&[0; HEAD])?;
            self.written = HEAD;
        }
        let entry = self.image.entries_from(self.written);
        stream.write_all(entry)?;
        self.written += entry.len();
        Ok(())
    }

    /// Writes what follows the entries, then the head, and leaves the stream behind the image.
    fn write_rest(&mut self) -> io::Result<()> {
        let image = std::mem::take(&mut self.image).finish()?;
        let stream = self.stream.as_mut().expect("only finish and drop take it");
        if self.written == 0 {
            stream.write_all(&image)?;
            return stream.flush();
        }
        stream.write_all(&image[self.written..])?;
        stream.flush()?;
        stream.seek(SeekFrom::Start(self.begin))?;
        stream.write_all(&image[..HEAD])?;
        stream.seek(SeekFrom::Start(self.begin + image.len() as u64))?;
        stream.flush()
    }
}

impl<T: Write + Seek> Drop for CQDBWriter<T> {
    fn drop(&mut self) {
        let panics = thread::panicking() && !self.in_panic;
        // After an error of the stream the caller knows.
        if self.stream.is_none() || self.failed.is_some() || panics {
            return;
        }
        if let Err(error) = self.write_rest() {
            eprintln!("cqdb: the image was not written: {error}");
        }
    }
}

impl<T: Write + Seek + fmt::Debug> fmt::Debug for CQDBWriter<T> {
    fn fmt(&self, f: &mut fmt::Formatter<'_>) -> fmt::Result {
        f.debug_struct("CQDBWriter")
            .field("writer", &self.stream)
            .field("begin", &self.begin)
            .field("image", &self.image)
            .field("failed", &self.failed)
            .finish_non_exhaustive()
    }
}

//! Refusals.
use std::{error, fmt, io};

/// Makes the enum of the refusals, each with its documentation, its number and its message. The same numbers and names stand
/// in docs/FORMAT.md and include/cqdb.h; tests/refusals compares the three.
macro_rules! refusals {
    ($($(#[$documentation:meta])* $name:ident = $number:literal, $message:literal;)*) => {
        /// Why a call was refused. A refused call changes nothing.
        #[derive(Clone, Copy, Debug, PartialEq, Eq, Hash)]
        #[non_exhaustive]
        pub enum Refusal {
            $($(#[$documentation])* $name = $number,)*
        }

        impl Refusal {
            pub(crate) fn from_number(number: u32) -> Refusal {
                match number {
                    $($number => Refusal::$name,)*
                    _ => unreachable!("the archive gives no refusal {number}"),
                }
            }

            fn message(self) -> &'static str {
                match self {
                    $(Refusal::$name => $message,)*
                }
            }
        }
    };
}

refusals! {
    /// The image has fewer than 2,072 bytes.
    TooShort = 1, "invalid file format";
    /// The writer's record and its buffer do not fit together. No writer of this crate gets there.
    Unfit = 2, "the writer does not fit its buffer";
    /// The finished image would exceed 4,294,967,295 bytes, or the memory that can be had. No [`Bundle`](crate::Bundle) gets there: its file grows.
    NoRoom = 3, "no room: the image would be too large";
    /// The buffer's entries are not those of the record. No writer of this crate gets there.
    Inconsistent = 4, "the buffer's entries are not those of the writer";
    /// The image does not begin with the letters CQDB.
    WrongLetters = 5, "invalid file format, magic mismatch";
    /// The word at offset 12, which shows the byte order, is wrong.
    WrongByteOrder = 6, "invalid file format, byte order mismatch";
    /// A table leaves the image.
    TableLeaves = 7, "invalid table data: out of bounds";
    /// The back array leaves the image.
    BackLeaves = 8, "invalid backward link data: out of bounds";
    /// The name has 4,294,967,295 bytes or more.
    NameTooLong = 9, "the name is too long";
    /// A bundle's images do not lie back to back, or the size word of an image to append isn't its length.
    BrokenBundle = 10, "invalid bundle: no image begins where one should";
    /// The bundle has no image at the position.
    NoSuchImage = 11, "the bundle has no image at this position";
    /// The page has more bytes than the output.
    PageTooLong = 12, "the page is longer than the output";
    /// The name has a zero byte.
    ZeroByte = 13, "the name has a zero byte";
    /// A round has more than 512 names or ids, or the ends of its names, or of a list's, fall or pass their bytes.
    RoundUnfit = 14, "the round has too many names or ids, or ends that do not fit its names";
    /// The answer list of a round is shorter than the round. No call of this crate gets there.
    AnswersTooFew = 15, "the answer list is shorter than the round";
    /// The writer already holds this name, and repeats were not [asked for](crate::CQDBWriter::with_repeats).
    Repeated = 16, "the writer already holds this name, and repeats are off";
    /// The bytes are not the image that some list of puts closes to.
    NotCanonical = 17, "the image is not canonical: no list of puts makes it";
    /// The image has no entry.
    NoEntries = 18, "the image has no entry";
    /// The round sheet has too few bytes.
    TooFewBytes = 19, "invalid round sheet, too few bytes";
    /// The round sheet has left-over bytes.
    LeftOverBytes = 20, "invalid round sheet, left-over bytes";
    /// A list of a round sheet has more than 65,535 ids, or its buffer is too short.
    SheetTooLarge = 21, "no room: a list of the round sheet is too long, or its buffer too short";
    /// A date, the one asked about or a window's, does not exist or is out of bounds.
    NoSuchDate = 22, "a date does not exist, or is out of bounds";
    /// A window does not start before its end.
    NotBeforeEnd = 23, "a window does not start before its end";
    /// The writer's index has no free slot. A writer of this crate gets there only where memory for a larger one cannot be had.
    IndexFull = 24, "the index has no free slot";
}

impl Refusal {
    /// Its number, the same in all languages.
    pub fn number(self) -> u32 {
        self as u32
    }

    /// The refusal that an error holds; none where it has another cause, such as a stream that could not be written.
    ///
    /// ```
    /// let error = cqdb::CQDB::new(b"CQDB").unwrap_err();
    /// assert_eq!(cqdb::Refusal::of(&error), Some(cqdb::Refusal::TooShort));
    /// assert_eq!(error.to_string(), "invalid file format");
    /// ```
    pub fn of(error: &io::Error) -> Option<Refusal> {
        error.get_ref()?.downcast_ref().copied()
    }
}

/// The value of an accepted call, or the refusal of its number.
pub(crate) fn or<T>(number: u32, value: T) -> Result<T, Refusal> {
    match number {
        0 => Ok(value),
        _ => Err(Refusal::from_number(number)),
    }
}

impl fmt::Display for Refusal {
    fn fmt(&self, f: &mut fmt::Formatter<'_>) -> fmt::Result {
        f.write_str(self.message())
    }
}

impl error::Error for Refusal {}

impl From<Refusal> for io::Error {
    fn from(refusal: Refusal) -> io::Error {
        io::Error::other(refusal)
    }
}

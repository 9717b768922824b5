//! Names as text.
use std::borrow::{Borrow, Cow};
use std::cmp::Ordering;
use std::fmt::{self, Write};
use std::ops::{Deref, Index, Range, RangeFrom, RangeFull, RangeInclusive, RangeTo, RangeToInclusive};
use std::str;

/// A name: bytes that are text by custom. It prints as text, with a replacement character for bytes that are none, compares
/// with `str`, `[u8]` and their owned forms, and is a `[u8]` in all else. cqdb-rs has it from the crate bstr.
///
/// ```
/// let name = cqdb::BStr::new(b"Kaimauer \xff");
/// assert_eq!(name, b"Kaimauer \xff");
/// assert_ne!(name, "Kaimauer");
/// assert_eq!(name.to_string(), "Kaimauer \u{fffd}");
/// assert_eq!(format!("{name:?}"), r#""Kaimauer \xff""#);
/// assert!(name.starts_with(b"Kai"));
/// ```
#[derive(PartialEq, Eq, PartialOrd, Ord, Hash)]
#[repr(transparent)]
pub struct BStr([u8]);

impl BStr {
    /// These bytes as a name.
    #[inline]
    pub fn new<B: AsRef<[u8]> + ?Sized>(bytes: &B) -> &BStr {
        let bytes: *const [u8] = bytes.as_ref();
        // SAFETY: BStr is a transparent struct over [u8], so a reference to one is a reference to the other.
        unsafe { &*(bytes as *const BStr) }
    }

    /// The name where it is text, that is, UTF-8.
    pub fn to_str(&self) -> Result<&str, str::Utf8Error> {
        str::from_utf8(&self.0)
    }

    /// The name as text, with a replacement character for bytes that are none.
    pub fn to_str_lossy(&self) -> Cow<'_, str> {
        String::from_utf8_lossy(&self.0)
    }

    /// Gives each run of text and the bytes behind it that are none, in order.
    fn parts(&self, mut each: impl FnMut(&str, &[u8]) -> fmt::Result) -> fmt::Result {
        let mut rest = &self.0;
        loop {
            let error = match str::from_utf8(rest) {
                Ok(text) => return each(text, &[]),
                Err(error) => error,
            };
            let (text, from) = rest.split_at(error.valid_up_to());
            let (wrong, behind) = from.split_at(error.error_len().unwrap_or(from.len()));
            each(str::from_utf8(text).expect("up to here it is text"), wrong)?;
            rest = behind;
        }
    }
}

impl Deref for BStr {
    type Target = [u8];

    #[inline]
    fn deref(&self) -> &[u8] {
        &self.0
    }
}

impl AsRef<[u8]> for BStr {
    fn as_ref(&self) -> &[u8] {
        &self.0
    }
}

impl AsRef<BStr> for BStr {
    fn as_ref(&self) -> &BStr {
        self
    }
}

impl AsRef<BStr> for [u8] {
    fn as_ref(&self) -> &BStr {
        BStr::new(self)
    }
}

impl AsRef<BStr> for str {
    fn as_ref(&self) -> &BStr {
        BStr::new(self)
    }
}

impl Index<usize> for BStr {
    type Output = u8;

    fn index(&self, place: usize) -> &u8 {
        &self.0[place]
    }
}

/// A part of a name is a name: it prints as text, where a part of a `[u8]` prints as numbers.
macro_rules! parts {
    ($($range:ty)*) => {$(
        impl Index<$range> for BStr {
            type Output = BStr;

            fn index(&self, range: $range) -> &BStr {
                BStr::new(&self.0[range])
            }
        }
    )*};
}

parts! { RangeFull Range<usize> RangeInclusive<usize> RangeFrom<usize> RangeTo<usize> RangeToInclusive<usize> }

impl Borrow<[u8]> for BStr {
    fn borrow(&self) -> &[u8] {
        &self.0
    }
}

/// What can stand for a name in a map that has names as keys.
macro_rules! borrows {
    ($($owner:ty)*) => {$(
        impl Borrow<BStr> for $owner {
            fn borrow(&self) -> &BStr {
                BStr::new(self)
            }
        }
    )*};
}

borrows! { Vec<u8> String [u8] str }

impl Default for &BStr {
    fn default() -> Self {
        BStr::new("")
    }
}

impl<'a> From<&'a [u8]> for &'a BStr {
    fn from(bytes: &'a [u8]) -> &'a BStr {
        BStr::new(bytes)
    }
}

impl<'a> From<&'a str> for &'a BStr {
    fn from(text: &'a str) -> &'a BStr {
        BStr::new(text)
    }
}

impl<'a, const N: usize> From<&'a [u8; N]> for &'a BStr {
    fn from(bytes: &'a [u8; N]) -> &'a BStr {
        BStr::new(bytes)
    }
}

impl<'a> From<&'a BStr> for &'a [u8] {
    fn from(name: &'a BStr) -> &'a [u8] {
        name
    }
}

impl<'a> From<&'a BStr> for Cow<'a, BStr> {
    fn from(name: &'a BStr) -> Cow<'a, BStr> {
        Cow::Borrowed(name)
    }
}

impl From<Box<BStr>> for Box<[u8]> {
    fn from(name: Box<BStr>) -> Box<[u8]> {
        // SAFETY: BStr is a transparent struct over [u8], so what was allocated for one can be freed as the other.
        unsafe { Box::from_raw(Box::into_raw(name) as *mut [u8]) }
    }
}

impl From<Box<[u8]>> for Box<BStr> {
    fn from(bytes: Box<[u8]>) -> Box<BStr> {
        // SAFETY: as above, the other way.
        unsafe { Box::from_raw(Box::into_raw(bytes) as *mut BStr) }
    }
}

impl Clone for Box<BStr> {
    fn clone(&self) -> Box<BStr> {
        Box::<[u8]>::from(&self.0).into()
    }
}

/// The name where it is text, as [`BStr::to_str`] gives it.
impl<'a> TryFrom<&'a BStr> for &'a str {
    type Error = str::Utf8Error;

    fn try_from(name: &'a BStr) -> Result<&'a str, str::Utf8Error> {
        name.to_str()
    }
}

/// The same, owned.
impl<'a> TryFrom<&'a BStr> for String {
    type Error = str::Utf8Error;

    fn try_from(name: &'a BStr) -> Result<String, str::Utf8Error> {
        name.to_str().map(str::to_owned)
    }
}

/// Comparisons of a name, owned or not, with another type that has bytes, in both directions.
macro_rules! compares {
    ($(($($generics:tt)*) $name:ty, $other:ty;)*) => {$(
        impl<$($generics)*> PartialEq<$other> for $name {
            fn eq(&self, other: &$other) -> bool {
                self.0[..] == *AsRef::<[u8]>::as_ref(other)
            }
        }

        impl<$($generics)*> PartialEq<$name> for $other {
            fn eq(&self, name: &$name) -> bool {
                name == self
            }
        }

        impl<$($generics)*> PartialOrd<$other> for $name {
            fn partial_cmp(&self, other: &$other) -> Option<Ordering> {
                Some(self.0[..].cmp(AsRef::<[u8]>::as_ref(other)))
            }
        }

        impl<$($generics)*> PartialOrd<$name> for $other {
            fn partial_cmp(&self, name: &$name) -> Option<Ordering> {
                name.partial_cmp(self).map(Ordering::reverse)
            }
        }
    )*};
}

pub(crate) use compares;

compares! {
    () BStr, [u8];
    () BStr, str;
    ('a) BStr, &'a [u8];
    ('a) BStr, &'a str;
    (const N: usize) BStr, [u8; N];
    ('a, const N: usize) BStr, &'a [u8; N];
    () BStr, Vec<u8>;
    () BStr, String;
    ('a) &'a BStr, [u8];
    ('a) &'a BStr, str;
    ('a, const N: usize) &'a BStr, [u8; N];
    ('a) &'a BStr, Vec<u8>;
    ('a) &'a BStr, String;
}

/// Comparisons with bytes that may be owned or not.
macro_rules! compares_cow {
    ($($other:ty)*) => {$(
        impl<'a> PartialEq<Cow<'a, $other>> for &'a BStr {
            fn eq(&self, other: &Cow<'a, $other>) -> bool {
                **self == *AsRef::<[u8]>::as_ref(&**other)
            }
        }

        impl<'a> PartialEq<&'a BStr> for Cow<'a, $other> {
            fn eq(&self, name: &&'a BStr) -> bool {
                name == self
            }
        }
    )*};
}

compares_cow! { BStr str [u8] }

impl fmt::Display for BStr {
    fn fmt(&self, f: &mut fmt::Formatter<'_>) -> fmt::Result {
        let mut text = String::with_capacity(self.len());
        self.parts(|part, wrong| {
            text.push_str(part);
            if !wrong.is_empty() {
                text.push(char::REPLACEMENT_CHARACTER);
            }
            Ok(())
        })?;
        // As with bstr, a width counts only where an alignment is named.
        let room = f.width().unwrap_or(0).saturating_sub(text.chars().count());
        let before = match f.align() {
            Some(fmt::Alignment::Right) => room,
            Some(fmt::Alignment::Center) => room / 2,
            _ => 0,
        };
        let behind = if f.align().is_some() { room - before } else { 0 };
        let fill = f.fill();
        (0..before).try_for_each(|_| f.write_char(fill))?;
        f.write_str(&text)?;
        (0..behind).try_for_each(|_| f.write_char(fill))
    }
}

impl fmt::Debug for BStr {
    fn fmt(&self, f: &mut fmt::Formatter<'_>) -> fmt::Result {
        f.write_char('"')?;
        self.parts(|text, wrong| {
            text.chars().try_for_each(|letter| debug_letter(f, letter))?;
            wrong.iter().try_for_each(|byte| write!(f, "\\x{byte:02x}"))
        })?;
        f.write_char('"')
    }
}

/// As bstr shows a letter: control characters by their number, but for those that have an escape of their own.
fn debug_letter(f: &mut fmt::Formatter<'_>, letter: char) -> fmt::Result {
    match letter {
        '\0' => f.write_str("\\0"),
        '\t' | '\n' | '\r' => write!(f, "{}", letter.escape_debug()),
        '\x01'..='\x19' | '\x7f' => write!(f, "\\x{:02x}", letter as u32),
        _ => write!(f, "{}", letter.escape_debug()),
    }
}

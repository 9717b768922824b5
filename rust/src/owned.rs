//! Names as text, owned.
use std::borrow::{Borrow, Cow};
use std::cmp::Ordering;
use std::convert::Infallible;
use std::fmt;
use std::ops::{Deref, DerefMut};
use std::str::{self, FromStr};
use std::string;

use crate::name::{compares, BStr};

/// An owned name: a `Vec<u8>` that prints and compares as [`BStr`] does. `to_owned` of a name gives it. cqdb-rs has it from the
/// crate bstr.
///
/// ```
/// use cqdb::{BStr, BString};
///
/// let mut name: BString = BStr::new("north").to_owned();
/// name.extend_from_slice(b" wall");
/// assert_eq!(name, "north wall");
/// assert_eq!(format!("{name} {name:?}"), r#"north wall "north wall""#);
/// ```
#[derive(Clone, Default, PartialEq, Eq, PartialOrd, Ord, Hash)]
pub struct BString(Vec<u8>);

impl BString {
    /// These bytes as a name.
    pub const fn new(bytes: Vec<u8>) -> BString {
        BString(bytes)
    }
}

impl Deref for BString {
    type Target = Vec<u8>;

    fn deref(&self) -> &Vec<u8> {
        &self.0
    }
}

impl DerefMut for BString {
    fn deref_mut(&mut self) -> &mut Vec<u8> {
        &mut self.0
    }
}

impl ToOwned for BStr {
    type Owned = BString;

    fn to_owned(&self) -> BString {
        BString(self.to_vec())
    }
}

/// What an owned name can be taken for.
macro_rules! taken_for {
    ($($what:ty)*) => {$(
        impl AsRef<$what> for BString {
            fn as_ref(&self) -> &$what {
                self.0.as_slice().as_ref()
            }
        }

        impl Borrow<$what> for BString {
            fn borrow(&self) -> &$what {
                self.as_ref()
            }
        }
    )*};
}

taken_for! { [u8] BStr }

/// What an owned name can be made of, by a call.
macro_rules! made_of {
    ($(($($generics:tt)*) $what:ty, $by:expr;)*) => {$(
        impl<$($generics)*> From<$what> for BString {
            fn from(what: $what) -> BString {
                let by: fn($what) -> Vec<u8> = $by;
                BString(by(what))
            }
        }
    )*};
}

made_of! {
    () Vec<u8>, |bytes| bytes;
    () String, String::into_bytes;
    (const N: usize) [u8; N], |bytes| bytes.to_vec();
    ('a) &'a [u8], <[u8]>::to_vec;
    ('a) &'a str, |text| text.as_bytes().to_vec();
    ('a) &'a BStr, |name| name.to_vec();
    ('a, const N: usize) &'a [u8; N], |bytes| bytes.to_vec();
}

impl From<BString> for Vec<u8> {
    fn from(name: BString) -> Vec<u8> {
        name.0
    }
}

impl<'a> From<BString> for Cow<'a, BStr> {
    fn from(name: BString) -> Cow<'a, BStr> {
        Cow::Owned(name)
    }
}

impl<'a> From<&'a BString> for Cow<'a, BStr> {
    fn from(name: &'a BString) -> Cow<'a, BStr> {
        Cow::Borrowed(name.as_ref())
    }
}

/// The name where it is text, that is, UTF-8.
impl TryFrom<BString> for String {
    type Error = string::FromUtf8Error;

    fn try_from(name: BString) -> Result<String, string::FromUtf8Error> {
        String::from_utf8(name.0)
    }
}

/// The same, lent.
impl<'a> TryFrom<&'a BString> for &'a str {
    type Error = str::Utf8Error;

    fn try_from(name: &'a BString) -> Result<&'a str, str::Utf8Error> {
        str::from_utf8(&name.0)
    }
}

impl FromStr for BString {
    type Err = Infallible;

    fn from_str(text: &str) -> Result<BString, Infallible> {
        Ok(text.into())
    }
}

impl FromIterator<u8> for BString {
    fn from_iter<I: IntoIterator<Item = u8>>(bytes: I) -> BString {
        BString(bytes.into_iter().collect())
    }
}

impl FromIterator<char> for BString {
    fn from_iter<I: IntoIterator<Item = char>>(letters: I) -> BString {
        letters.into_iter().collect::<String>().into()
    }
}

/// Parts whose bytes are concatenated.
macro_rules! concatenated {
    ($(($($generics:tt)*) $part:ty;)*) => {$(
        impl<$($generics)*> FromIterator<$part> for BString {
            fn from_iter<I: IntoIterator<Item = $part>>(parts: I) -> BString {
                let mut all = BString::default();
                parts.into_iter().for_each(|part| all.extend_from_slice(AsRef::<[u8]>::as_ref(&part)));
                all
            }
        }
    )*};
}

concatenated! {
    ('a) &'a str;
    ('a) &'a [u8];
    ('a) &'a BStr;
    () BString;
}

compares! {
    () BString, [u8];
    () BString, str;
    () BString, Vec<u8>;
    () BString, String;
    () BString, BStr;
    ('a) BString, &'a [u8];
    ('a) BString, &'a str;
    ('a) BString, &'a BStr;
    (const N: usize) BString, [u8; N];
    ('a, const N: usize) BString, &'a [u8; N];
}

impl fmt::Display for BString {
    fn fmt(&self, f: &mut fmt::Formatter<'_>) -> fmt::Result {
        fmt::Display::fmt(BStr::new(&self.0), f)
    }
}

impl fmt::Debug for BString {
    fn fmt(&self, f: &mut fmt::Formatter<'_>) -> fmt::Result {
        fmt::Debug::fmt(BStr::new(&self.0), f)
    }
}

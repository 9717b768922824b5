//! The flag of a writer.
use std::fmt;
use std::ops::{BitAnd, BitAndAssign, BitOr, BitOrAssign, BitXor, BitXorAssign, Not, Sub, SubAssign};
use std::option;

/// Does an image name ids? A set of flags with the calls and operators that cqdb-rs has from the crate bitflags. It holds no
/// other bits than those below.
#[derive(Clone, Copy, Default, PartialEq, Eq, PartialOrd, Ord, Hash)]
pub struct Flag(u32);

const ALL: u32 = 1;

impl Flag {
    /// Two-way: names to ids and ids to names.
    pub const NONE: Flag = Flag(0);
    /// One-way: the array that names ids is left out.
    pub const ONEWAY: Flag = Flag(1);

    /// No flag.
    pub const fn empty() -> Flag {
        Flag(0)
    }

    /// Every flag.
    pub const fn all() -> Flag {
        Flag(ALL)
    }

    /// The flags as a number: the flag word of the image.
    pub const fn bits(&self) -> u32 {
        self.0
    }

    /// The flags of a number; none where it has another bit.
    pub const fn from_bits(bits: u32) -> Option<Flag> {
        match bits & !ALL {
            0 => Some(Flag(bits)),
            _ => None,
        }
    }

    /// The flags of a number, its other bits left out.
    pub const fn from_bits_truncate(bits: u32) -> Flag {
        Flag(bits & ALL)
    }

    /// The flag of a name.
    pub fn from_name(name: &str) -> Option<Flag> {
        match name {
            "NONE" => Some(Flag::NONE),
            "ONEWAY" => Some(Flag::ONEWAY),
            _ => None,
        }
    }

    /// The flags that are set, one by one.
    ///
    /// ```
    /// use cqdb::Flag;
    ///
    /// assert!(Flag::all().iter().eq([Flag::ONEWAY]));
    /// assert!(Flag::NONE.iter().next().is_none());
    /// ```
    pub fn iter(&self) -> option::IntoIter<Flag> {
        self.contains(Flag::ONEWAY).then_some(Flag::ONEWAY).into_iter()
    }

    /// The names of the flags that are set, with their flags.
    pub fn iter_names(&self) -> option::IntoIter<(&'static str, Flag)> {
        self.contains(Flag::ONEWAY).then_some(("ONEWAY", Flag::ONEWAY)).into_iter()
    }

    /// Is no flag set?
    pub const fn is_empty(&self) -> bool {
        self.0 == 0
    }

    /// Is every flag set?
    pub const fn is_all(&self) -> bool {
        self.0 == ALL
    }

    /// Is some flag set in both?
    pub const fn intersects(&self, other: Flag) -> bool {
        self.0 & other.0 != 0
    }

    /// Is every flag of the other set here?
    pub const fn contains(&self, other: Flag) -> bool {
        self.0 & other.0 == other.0
    }

    /// Sets the flags of the other.
    pub fn insert(&mut self, other: Flag) {
        *self = self.union(other);
    }

    /// Takes the flags of the other away.
    pub fn remove(&mut self, other: Flag) {
        *self = self.difference(other);
    }

    /// Changes the flags of the other.
    pub fn toggle(&mut self, other: Flag) {
        *self = self.symmetric_difference(other);
    }

    /// Sets the flags of the other, or takes them away.
    pub fn set(&mut self, other: Flag, value: bool) {
        *self = if value { self.union(other) } else { self.difference(other) };
    }

    /// The flags that are set in both.
    #[must_use]
    pub const fn intersection(self, other: Flag) -> Flag {
        Flag(self.0 & other.0)
    }

    /// The flags that are set in either.
    #[must_use]
    pub const fn union(self, other: Flag) -> Flag {
        Flag(self.0 | other.0)
    }

    /// The flags that are set here and not in the other.
    #[must_use]
    pub const fn difference(self, other: Flag) -> Flag {
        Flag(self.0 & !other.0)
    }

    /// The flags that are set in one of the two.
    #[must_use]
    pub const fn symmetric_difference(self, other: Flag) -> Flag {
        Flag(self.0 ^ other.0)
    }

    /// The flags that are not set.
    #[must_use]
    pub const fn complement(self) -> Flag {
        Flag(!self.0 & ALL)
    }
}

/// An operator, its assigning form, and the call that both stand for.
macro_rules! operators {
    ($($operator:ident $by:ident, $assigning:ident $assign:ident: $call:ident;)*) => {$(
        impl $operator for Flag {
            type Output = Flag;

            fn $by(self, other: Flag) -> Flag {
                self.$call(other)
            }
        }

        impl $assigning for Flag {
            fn $assign(&mut self, other: Flag) {
                *self = self.$call(other);
            }
        }
    )*};
}

operators! {
    BitOr bitor, BitOrAssign bitor_assign: union;
    BitAnd bitand, BitAndAssign bitand_assign: intersection;
    BitXor bitxor, BitXorAssign bitxor_assign: symmetric_difference;
    Sub sub, SubAssign sub_assign: difference;
}

impl Not for Flag {
    type Output = Flag;

    fn not(self) -> Flag {
        self.complement()
    }
}

impl IntoIterator for Flag {
    type Item = Flag;
    type IntoIter = option::IntoIter<Flag>;

    fn into_iter(self) -> option::IntoIter<Flag> {
        self.iter()
    }
}

impl Extend<Flag> for Flag {
    fn extend<I: IntoIterator<Item = Flag>>(&mut self, flags: I) {
        flags.into_iter().for_each(|flag| self.insert(flag));
    }
}

impl FromIterator<Flag> for Flag {
    fn from_iter<I: IntoIterator<Item = Flag>>(flags: I) -> Flag {
        flags.into_iter().fold(Flag::empty(), Flag::union)
    }
}

/// The forms of a number, those of the bits.
macro_rules! numbers {
    ($($form:ident)*) => {$(
        impl fmt::$form for Flag {
            fn fmt(&self, f: &mut fmt::Formatter<'_>) -> fmt::Result {
                fmt::$form::fmt(&self.0, f)
            }
        }
    )*};
}

numbers! { Binary Octal LowerHex UpperHex }

impl fmt::Debug for Flag {
    fn fmt(&self, f: &mut fmt::Formatter<'_>) -> fmt::Result {
        let set = if self.is_empty() { format_args!("0x0") } else { format_args!("ONEWAY") };
        f.debug_tuple("Flag").field(&set).finish()
    }
}

//! As much of `sawp_flags` as the Rust file needs in order to compile: a set of one-byte flags.

use std::marker::PhantomData;
use std::ops::BitOrAssign;

pub use sawp_flags_derive::BitFlags;

/// One flag of an enum whose numbers are single bits.
pub trait Flag: Copy {
    fn bits(self) -> u8;

    fn none() -> Flags<Self> {
        Flags {
            bits: 0,
            of: PhantomData,
        }
    }
}

/// A set of such flags.
#[derive(Debug, Clone, Copy, PartialEq, Eq)]
pub struct Flags<T: Flag> {
    bits: u8,
    of: PhantomData<T>,
}

impl<T: Flag> Flags<T> {
    pub fn bits(&self) -> u8 {
        self.bits
    }
}

impl<T: Flag> From<T> for Flags<T> {
    fn from(flag: T) -> Self {
        Flags {
            bits: flag.bits(),
            of: PhantomData,
        }
    }
}

impl<T: Flag> BitOrAssign for Flags<T> {
    fn bitor_assign(&mut self, other: Self) {
        self.bits |= other.bits;
    }
}

impl<T: Flag> BitOrAssign<T> for Flags<T> {
    fn bitor_assign(&mut self, flag: T) {
        self.bits |= flag.bits();
    }
}

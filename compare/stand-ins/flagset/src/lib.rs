//! Stand-in for the crate `flagset`: the part of its sets that the mesher uses.
//! A flag's bit is its place in the enum; a set is walked from the lowest bit up.

use std::ops::{BitOrAssign, Not};

pub trait Flags: Copy + 'static {
    const LIST: &'static [Self];
    fn place(self) -> u32;
}

#[macro_export]
macro_rules! flags {
    ($(#[$meta:meta])* $vis:vis enum $name:ident: u8 { $($flag:ident),+ $(,)? }) => {
        $(#[$meta])*
        #[derive(Clone, Copy, Debug, PartialEq, Eq)]
        $vis enum $name { $($flag),+ }

        impl $crate::Flags for $name {
            const LIST: &'static [Self] = &[$($name::$flag),+];
            fn place(self) -> u32 {
                self as u32
            }
        }
    };
}

#[derive(Debug, PartialEq, Eq)]
pub struct FlagSet<F> {
    bits: u8,
    flags: std::marker::PhantomData<F>,
}

impl<F> FlagSet<F> {
    fn of_bits(bits: u8) -> Self {
        FlagSet { bits, flags: std::marker::PhantomData }
    }
}

impl<F: Flags> FlagSet<F> {
    pub fn contains(self, flag: F) -> bool {
        self.bits >> flag.place() & 1 == 1
    }
}

impl<F> Clone for FlagSet<F> {
    fn clone(&self) -> Self {
        *self
    }
}

impl<F> Copy for FlagSet<F> {}

impl<F> Default for FlagSet<F> {
    fn default() -> Self {
        Self::of_bits(0)
    }
}

impl<F: Flags> BitOrAssign<F> for FlagSet<F> {
    fn bitor_assign(&mut self, flag: F) {
        self.bits |= 1 << flag.place();
    }
}

impl<F: Flags> Not for FlagSet<F> {
    type Output = Self;
    fn not(self) -> Self {
        let mut all = Self::default();
        for &flag in F::LIST {
            all |= flag;
        }
        Self::of_bits(all.bits & !self.bits)
    }
}

impl<F: Flags> IntoIterator for FlagSet<F> {
    type Item = F;
    type IntoIter = std::vec::IntoIter<F>;
    fn into_iter(self) -> Self::IntoIter {
        let named: Vec<F> = F::LIST.iter().copied().filter(|&flag| self.contains(flag)).collect();
        named.into_iter()
    }
}

//! Stand-in for the crate `num`: the part of its `Float` that the mesher uses.

use std::ops::{Add, Div, Mul, Neg, Sub};

pub trait Float:
    Copy
    + PartialOrd
    + Add<Output = Self>
    + Sub<Output = Self>
    + Mul<Output = Self>
    + Div<Output = Self>
    + Neg<Output = Self>
{
    fn abs(self) -> Self;
    fn sqrt(self) -> Self;
}

macro_rules! float_impl {
    ($T:ident) => {
        impl Float for $T {
            fn abs(self) -> Self {
                $T::abs(self)
            }
            fn sqrt(self) -> Self {
                $T::sqrt(self)
            }
        }
    };
}

float_impl!(f32);
float_impl!(f64);

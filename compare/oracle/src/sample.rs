//! Document 01's sample: inside is `>=`, and the weight has no epsilon rule.

use num::Float;
use std::ops::{Add, Div, Mul, Neg, Sub};
use transvoxel::traits::voxel_data::Density;

#[derive(Clone, Copy, Debug, Default, PartialEq, PartialOrd)]
pub struct Sample(pub f32);

impl Density for Sample {
    const EPSILON: Self = Sample(0.0);
    const HALF: Self = Sample(0.5);
    const ZERO: Self = Sample(0.0);

    fn inside(&self, threshold: &Self) -> bool {
        self >= threshold
    }

    fn interpolate(a: Self, b: Self, threshold: Self) -> Self {
        (threshold - a) / (b - a)
    }

    fn diff(&self, other: Self) -> Self {
        *self - other
    }
}

macro_rules! operation {
    ($Trait:ident, $name:ident) => {
        impl $Trait for Sample {
            type Output = Self;
            fn $name(self, other: Self) -> Self {
                Sample(self.0.$name(other.0))
            }
        }
    };
}

operation!(Add, add);
operation!(Sub, sub);
operation!(Mul, mul);
operation!(Div, div);

impl Neg for Sample {
    type Output = Self;
    fn neg(self) -> Self {
        Sample(-self.0)
    }
}

impl Float for Sample {
    fn abs(self) -> Self {
        Sample(self.0.abs())
    }
    fn sqrt(self) -> Self {
        Sample(self.0.sqrt())
    }
}

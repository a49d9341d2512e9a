//! Stand-in for the crate num-traits: the traits and methods that the source names, for f64 and f32.
//! Every operation is the type's own. An f64 becomes an f32 by the cast, which rounds to the nearest.

use std::ops::{Add, Div, Mul, Neg, Sub};

pub trait Zero: Sized + Add<Self, Output = Self> {
    fn zero() -> Self;
}

pub trait One: Sized + Mul<Self, Output = Self> {
    fn one() -> Self;
}

pub trait FromPrimitive: Sized {
    fn from_f64(x: f64) -> Option<Self>;
    fn from_usize(x: usize) -> Option<Self>;
}

pub trait ToPrimitive {
    fn to_f64(&self) -> Option<f64>;
}

pub trait Float:
    Copy + PartialOrd + Zero + One + ToPrimitive + Neg<Output = Self> + Sub<Self, Output = Self> + Div<Self, Output = Self>
{
    fn epsilon() -> Self;
    fn abs(self) -> Self;
    fn ln(self) -> Self;
    fn ceil(self) -> Self;
    fn powf(self, p: Self) -> Self;
}

/// All of them for one type of floats.
macro_rules! floats {
    ($t:ident) => {
        impl Zero for $t {
            fn zero() -> $t {
                0.0
            }
        }

        impl One for $t {
            fn one() -> $t {
                1.0
            }
        }

        impl FromPrimitive for $t {
            fn from_f64(x: f64) -> Option<$t> {
                Some(x as $t)
            }
            fn from_usize(x: usize) -> Option<$t> {
                Some(x as $t)
            }
        }

        impl ToPrimitive for $t {
            fn to_f64(&self) -> Option<f64> {
                Some(*self as f64)
            }
        }

        impl Float for $t {
            fn epsilon() -> $t {
                $t::EPSILON
            }
            fn abs(self) -> $t {
                $t::abs(self)
            }
            fn ln(self) -> $t {
                $t::ln(self)
            }
            fn ceil(self) -> $t {
                $t::ceil(self)
            }
            fn powf(self, p: $t) -> $t {
                $t::powf(self, p)
            }
        }
    };
}

floats!(f64);
floats!(f32);

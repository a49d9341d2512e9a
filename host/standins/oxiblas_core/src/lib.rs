//! Stand-in for the crate oxiblas-core: the scalar traits that the source names, for f64 and f32.
//! Every operation is the type's own.

pub mod scalar {
    use num_traits::{Float, FromPrimitive, One, Zero};
    use std::fmt::Debug;
    use std::ops::{Add, Div, Mul, Neg, Sub};

    pub trait Scalar:
        Copy
        + Debug
        + PartialEq
        + Zero
        + One
        + FromPrimitive
        + Neg<Output = Self>
        + Add<Self, Output = Self>
        + Sub<Self, Output = Self>
        + Mul<Self, Output = Self>
    {
        type Real: Real;
        fn abs(self) -> Self::Real;
        fn epsilon() -> Self::Real;
    }

    pub trait Field: Scalar + Div<Self, Output = Self> {}

    pub trait Real: Scalar<Real = Self> + Float {
        fn sqrt(self) -> Self;
        fn exp(self) -> Self;
        fn ln(self) -> Self;
        fn sin(self) -> Self;
        fn cos(self) -> Self;
    }

    /// All of them for one type of floats.
    macro_rules! floats {
        ($t:ident) => {
            impl Scalar for $t {
                type Real = $t;
                fn abs(self) -> $t {
                    $t::abs(self)
                }
                fn epsilon() -> $t {
                    $t::EPSILON
                }
            }

            impl Field for $t {}

            impl Real for $t {
                fn sqrt(self) -> $t {
                    $t::sqrt(self)
                }
                fn exp(self) -> $t {
                    $t::exp(self)
                }
                fn ln(self) -> $t {
                    $t::ln(self)
                }
                fn sin(self) -> $t {
                    $t::sin(self)
                }
                fn cos(self) -> $t {
                    $t::cos(self)
                }
            }
        };
    }

    floats!(f64);
    floats!(f32);
}

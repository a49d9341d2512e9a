//! The two widths of numbers, f64 and f32: their formats, and where their edges lie.

use oracle::Number;
use std::fmt::Debug;

/// Numbers at which calls are tried, beside those that both widths share.
pub struct Edges {
    /// Exponents of powers of two near the largest number, and of shears that a power takes past it.
    pub huge: (i32, i32),
    pub steep: (i32, i32),
    /// Exponents of two powers of two whose product is tiny; it is subnormal or next to it.
    pub tiny: [(i32, i32); 2],
    /// A part of the identity that is still seen beside it, and a tiny number that is not subnormal.
    pub small: f64,
    pub least: f64,
    /// Factors that take a power of two out of the distance that is not compared, or next to its edge.
    pub beyond: &'static [f64],
    /// Exponents at the edges of powm's integer test, and next to 3.
    pub exponents: &'static [f64],
    /// Huge and tiny entries of the calls that are written out, and a number next to 1.
    pub written_huge: f64,
    pub written_tiny: [f64; 2],
    pub written_one: f64,
    /// An order, the matrix's entries on the diagonal and next above it, and the direction's last entry in its first column: the exponential is finite, and
    /// frechet_expm's run on the block would not be. The second and the third have more than 64 halvings.
    pub directed: [(usize, f64, f64, f64); 3],
    /// Exponents of two powers of two, x and y. [[-x, -y], [y, -x]], nearly half a turn, has a root whose passes settle in the hundredth: the first pair by
    /// Denman and Beavers' iteration, the second by Newton's, in a logarithm.
    pub hundredth: [(i32, i32); 2],
}

/// A width of numbers.
pub trait Width: Number + Default + Debug + Send + Sync + 'static {
    /// The type's name.
    const NAME: &'static str;
    /// All bits of a number, and those of its fraction.
    const BITS: u32;
    const FRACTION: u32;
    /// The exponents of the largest and of the least power of two.
    const LARGEST: i32;
    const LEAST: i32;
    /// A norm within the relative distance 2 to the power of this, negated, of a power of two is not compared.
    const NEAR: u32;
    const EDGES: Edges;

    /// The whole numbers that have as many bits.
    type Word: Copy + Eq + Debug + Into<u64> + Send + Sync;

    /// The low bits of a whole number, as many as a number has.
    fn low(bits: u64) -> Self::Word;
    /// The nearest number.
    fn of(x: f64) -> Self;
    /// The same number in f64.
    fn wide(self) -> f64;
    fn bits(self) -> u64;
    fn of_bits(bits: u64) -> Self;
    fn next_up(self) -> Self;
    fn next_down(self) -> Self;
    fn magnitude(self) -> Self;
    /// The natural logarithm.
    fn logarithm(self) -> Self;

    fn is_nan(self) -> bool {
        self.wide().is_nan()
    }

    fn is_finite(self) -> bool {
        self.wide().is_finite()
    }

    /// The power of two with this exponent, from the least to the largest.
    fn power(exponent: i32) -> Self {
        Self::of(2f64.powi(exponent / 2) * 2f64.powi(exponent - exponent / 2))
    }

    /// The bits of infinity; those of a NaN are above them.
    fn infinity_bits() -> u64 {
        ((1 << (Self::BITS - 1 - Self::FRACTION)) - 1) << Self::FRACTION
    }

    fn infinity() -> Self {
        Self::of_bits(Self::infinity_bits())
    }

    fn largest() -> Self {
        Self::of_bits(Self::infinity_bits() - 1)
    }

    /// The bits of the NaN that every NaN is written as.
    fn nan_bits() -> u64 {
        Self::infinity_bits() | 1 << (Self::FRACTION - 1)
    }
}

/// What both have by the same names.
macro_rules! own {
    ($t:ident, $u:ident) => {
        type Word = $u;

        fn low(bits: u64) -> $u {
            bits as $u
        }
        fn of(x: f64) -> $t {
            x as $t
        }
        fn wide(self) -> f64 {
            self as f64
        }
        fn bits(self) -> u64 {
            self.to_bits() as u64
        }
        fn of_bits(bits: u64) -> $t {
            $t::from_bits(Self::low(bits))
        }
        fn next_up(self) -> $t {
            $t::next_up(self)
        }
        fn next_down(self) -> $t {
            $t::next_down(self)
        }
        fn magnitude(self) -> $t {
            $t::abs(self)
        }
        fn logarithm(self) -> $t {
            $t::ln(self)
        }
    };
}

impl Width for f64 {
    const NAME: &'static str = "f64";
    const BITS: u32 = 64;
    const FRACTION: u32 = 52;
    const LARGEST: i32 = 1023;
    const LEAST: i32 = -1074;
    const NEAR: u32 = 40;
    const EDGES: Edges = Edges {
        huge: (900, 1020),
        steep: (1000, 1023),
        tiny: [(-500, -450), (-560, -500)],
        small: 1e-9,
        least: 1e-300,
        beyond: &[1.0 + 1e-11],
        exponents: &[0.0, -0.0, 1e-15, 1e-14, 9.9e-15, -1e-15, -1e-14, 3.0 + 1e-14, 3.0 - 9e-15, 1e19, -1e19],
        written_huge: 1e200,
        written_tiny: [1e-200, 1e-220],
        written_one: 1.0000000001,
        directed: [(8, 420.0, 1e16, 8e15), (2, 0.0, 1e200, 1e200), (2, 0.0, 1e100, 1e250)],
        hundredth: [(59, -4), (59, -4)],
    };
    own!(f64, u64);
}

impl Width for f32 {
    const NAME: &'static str = "f32";
    const BITS: u32 = 32;
    const FRACTION: u32 = 23;
    const LARGEST: i32 = 127;
    const LEAST: i32 = -149;
    const NEAR: u32 = 12;
    const EDGES: Edges = Edges {
        huge: (112, 124),
        steep: (104, 127),
        tiny: [(-60, -50), (-84, -60)],
        small: 1e-4,
        least: 1e-36,
        // The second and the fourth are the next numbers outside the distance.
        beyond: &[1.0 + 1e-3, 1.0 + 2049.0 / 8388608.0, 1.0 - 1e-3, 1.0 - 4097.0 / 16777216.0],
        // The nearest number to 1e-14 lies below it, the next one above.
        exponents: &[
            0.0,
            -0.0,
            1e-15,
            1e-14,
            1.0000001e-14,
            9.9e-15,
            -1e-15,
            -1e-14,
            -1.0000001e-14,
            3.0000002,
            2.9999998,
            1e19,
            -1e19,
        ],
        written_huge: 1e30,
        written_tiny: [1e-30, 1e-33],
        written_one: 1.0001,
        directed: [(2, 0.0, 1e15, 1e15), (2, 0.0, 1e30, 1e30), (2, 0.0, 1e15, 1e35)],
        hundredth: [(32, -46), (124, 94)],
    };
    own!(f32, u32);
}

//! Matrices of more kinds: badly conditioned, with rows of different sizes, with eigenvalues below 0, next to overflow.

use crate::call::{CODES, FUNCTIONS};
use crate::cases::{Kind, NOT_FINITE, matrix_for, shear, shear_at_limit, square};
use crate::random::Random;
use crate::width::Width;

/// An infinity or a NaN, with any sign and payload.
fn not_finite<T: Width>(r: &mut Random) -> T {
    if r.once_in(2) { T::of(r.pick(&NOT_FINITE)) } else { T::of_bits(r.bits() | T::infinity_bits()) }
}

/// Replaces an entry, once in n.
pub fn spoil<T: Width>(numbers: &mut [T], n: usize, r: &mut Random) {
    if r.once_in(n) {
        let at = r.below(numbers.len());
        numbers[at] = not_finite(r);
    }
}

/// Entries 1 / (i + j + 1), times a power of two: badly conditioned from order 4 on.
fn reciprocals<T: Width>(n: usize, r: &mut Random) -> Vec<T> {
    let scale = r.power_of_two(-8, 8);
    (0..n * n).map(|k| T::of(scale / (k / n + k % n + 1) as f64)).collect()
}

/// Rows of very different sizes.
fn uneven<T: Width>(n: usize, r: &mut Random) -> Vec<T> {
    let mut a: Vec<T> = square(Kind::Normal, n, r);
    for row in a.chunks_mut(n) {
        let scale = T::of(r.power_of_two(-40, 40));
        row.iter_mut().for_each(|x| *x = *x * scale);
    }
    a
}

/// Eigenvalues that are real, and some or all below 0: the diagonal of a triangle, or a definite matrix negated.
fn negative<T: Width>(n: usize, r: &mut Random) -> Vec<T> {
    if r.once_in(2) {
        return square::<T>(Kind::Definite, n, r).iter().map(|x| -*x).collect();
    }
    let mut a: Vec<T> = square(Kind::PositiveUpper, n, r);
    for i in 0..n {
        a[i * n + i] = a[i * n + i] * T::of(r.pick(&[-1.0, -1.0, 1.0]));
    }
    a
}

/// A shear whose logarithm, an entry near the largest number, a fractional power may take past the largest.
fn steep<T: Width>(n: usize, r: &mut Random) -> Vec<T> {
    let entry = T::of(r.sign() * (1.0 + r.unit())) * T::power(T::LARGEST - 1);
    shear(n, entry, r)
}

/// A matrix of any kind; one in 24 has an entry that is not finite.
pub fn matrix<T: Width>(n: usize, r: &mut Random) -> Vec<T> {
    let mut a = match r.below(24) {
        0..=1 => reciprocals(n, r),
        2..=3 => uneven(n, r),
        4..=5 => negative(n, r),
        6..=7 => square(r.pick(&[Kind::Zeros, Kind::SmallIntegers, Kind::Singular]), n, r),
        8..=9 => square(r.pick(&[Kind::Huge, Kind::Tiny, Kind::Overflowing]), n, r),
        10 => steep(n, r),
        11 => shear_at_limit(n, r),
        // The kinds that suit a function, and now and then any kind.
        _ => matrix_for(FUNCTIONS[r.below(CODES)].0, n, r),
    };
    spoil(&mut a, 24, r);
    a
}

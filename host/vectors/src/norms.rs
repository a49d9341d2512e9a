//! The 1-norm, the block of frechet_expm, and the halvings.

use crate::width::Width;

/// The largest column sum of magnitudes, from +0; a NaN sum never wins.
pub fn one_norm<T: Width>(n: usize, a: &[T]) -> T {
    let mut largest = T::zero();
    for j in 0..n {
        let mut sum = T::zero();
        for i in 0..n {
            sum = sum + a[i * n + j].magnitude();
        }
        if sum > largest {
            largest = sum;
        }
    }
    largest
}

/// [A E; 0 A].
pub fn block<T: Width>(n: usize, a: &[T], e: &[T]) -> Vec<T> {
    let mut b = vec![T::zero(); 4 * n * n];
    for i in 0..n {
        for j in 0..n {
            b[2 * n * i + j] = a[n * i + j];
            b[2 * n * i + n + j] = e[n * i + j];
            b[2 * n * (n + i) + n + j] = a[n * i + j];
        }
    }
    b
}

/// I / √n, the direction of cond_expm. The root is rounded in f64 first.
pub fn even_direction<T: Width>(n: usize) -> Vec<T> {
    let mut e = vec![T::zero(); n * n];
    for i in 0..n {
        e[i * n + i] = T::one() / T::of((n as f64).sqrt());
    }
    e
}

/// The Frobenius norm: the root of the sum of squares, row by row from +0.
pub fn frobenius_norm<T: Width>(a: &[T]) -> T {
    let mut sum = T::zero();
    for x in a {
        sum = sum + *x * *x;
    }
    sum.sqrt()
}

/// Document 01's halvings of a finite norm: the least s from 0 with norm ≤ 2^s.
pub fn halvings<T: Width>(norm: T) -> usize {
    let norm = norm.wide();
    if norm <= 1.0 {
        return 0;
    }
    let bits = norm.to_bits();
    let exponent = (bits >> 52) as usize - 1023;
    if bits << 12 == 0 { exponent } else { exponent + 1 }
}

/// The most halvings that a call may need; question 17 refuses more.
pub const MOST_HALVINGS: usize = 64;

/// The source's halvings: the ceiling of ln(norm) / ln 2, at least 0.
pub fn source_halvings<T: Width>(norm: T) -> usize {
    (norm.logarithm() / T::of(2.0).logarithm()).wide().ceil().max(0.0) as usize
}

/// Within relative distance 2^-40 of a power of two, 2^-12 in f32. Norms below 1/2 have no halvings by either count and are not asked about.
pub fn near_power_of_two<T: Width>(norm: T) -> bool {
    if norm < T::of(0.5) {
        return false;
    }
    // The number is (1 + m × 2^-f) × 2^k. Its relative distance from 2^k is m × 2^-f, that from 2^(k+1) is (2^f − m) × 2^-(f+1).
    let one = 1 << T::FRACTION;
    let m = norm.bits() & (one - 1);
    let distance = one >> T::NEAR;
    m <= distance || one - m <= 2 * distance
}

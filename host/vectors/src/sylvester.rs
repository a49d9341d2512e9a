//! Document 02's #106, frechet_sqrtm_sylvester. The source has no such function. Its root, its LU and the layout of its frechet_sqrtm are taken; reports.rs
//! compares the layout with the source's at each call of frechet_sqrtm.

use crate::width::Width;
use oracle::{Lu, MatFunError};

/// The matrix of order n × n of the equation A X + X C = E, where B is C transposed. Entry (r, c) of block (p, q) is +0, plus the entry (r, c) of A where
/// p = q, plus the entry (p, q) of B where r = c. The columns of X, and those of E, stand one after the other.
pub fn layout<T: Width>(n: usize, a: &[T], b: &[T]) -> Vec<T> {
    let mut system = vec![T::zero(); n * n * n * n];
    let mut add = |row: usize, column: usize, x: T| {
        let at = row * n * n + column;
        system[at] = system[at] + x;
    };
    for k in 0..n {
        a.iter().enumerate().for_each(|(at, x)| add(k * n + at / n, k * n + at % n, *x));
    }
    for (at, x) in b.iter().enumerate() {
        (0..n).for_each(|k| add(at / n * n + k, at % n * n + k, *x));
    }
    system
}

/// The matrix's columns, one after the other; of those again the matrix.
pub fn transposed<T: Width>(n: usize, a: &[T]) -> Vec<T> {
    (0..n * n).map(|k| a[k % n * n + k / n]).collect()
}

/// The root S of A, and the X with S X + X S = E; at order 1 what the source's frechet_sqrtm gives.
pub fn frechet_sqrtm_sylvester<T: Width>(n: usize, a: &[T], e: &[T]) -> Result<(Vec<T>, Vec<T>), MatFunError> {
    if n == 1 {
        return oracle::frechet_sqrtm(1, 1, a, 1, 1, e);
    }
    let root = oracle::sqrtm(n, n, a)?;
    let lu = Lu::compute(n * n, n * n, &layout(n, &root, &transposed(n, &root)));
    let lu = lu.map_err(|_| MatFunError::NotConverged)?;
    let columns = lu.solve(n * n, 1, &transposed(n, e)).map_err(|_| MatFunError::NotConverged)?;
    Ok((root, transposed(n, &columns)))
}

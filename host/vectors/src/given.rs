//! Calls that are written out, beside the random ones.

use crate::call::{Call, Function, Function::*};
use crate::norms::MOST_HALVINGS;
use crate::width::Width;

/// Square matrices: an order and its numbers, row by row.
fn matrices<T: Width>() -> Vec<(usize, Vec<f64>)> {
    let edges = T::EDGES;
    let (huge, [tiny, tinier]) = (edges.written_huge, edges.written_tiny);
    let fourths = [0.5, 0.33, 0.25, 0.2, 0.16, 0.14];
    let reciprocal = |k: usize| if k == 0 { 1.0 } else { fourths[k / 4 + k % 4 - 1] };
    vec![
        // Order 1, at the edges of question 10.
        (1, vec![4.0]),
        (1, vec![-0.0]),
        (1, vec![-1.0]),
        // Zero, symmetric, triangular.
        (2, vec![0.0, 0.0, 0.0, 0.0]),
        (2, vec![2.0, 1.0, 1.0, 4.0]),
        (2, vec![1.0, 0.7, 0.0, 1.0]),
        // Eigenvalues below 0, or beside the numbers.
        (2, vec![-1.0, 0.0, 0.0, -2.5]),
        (2, vec![0.0, 1.5, -1.5, 0.0]),
        // The iterations of roots run out of steps.
        (2, vec![-3.0, 0.0, 0.0, -2.5]),
        // Singular, and nearly so.
        (2, vec![1.0, 2.0, 2.0, 4.0]),
        (2, vec![1.0, 1.0, 1.0, edges.written_one]),
        (4, (0..16).map(reciprocal).collect()),
        // Huge and tiny.
        (2, vec![huge, 1.0, 0.0, huge]),
        (2, vec![tiny, 0.0, tinier, tiny]),
        (4, vec![0.0; 16]),
    ]
}

/// Bits of a matrix of order 2 with an eigenvalue below 0: the passes of its square root run out on finite numbers, in f32 too.
const RUNS_OUT: [u64; 4] = [0x3fd4269e0cbda768, 0xbffda4009d7ca03c, 0xbfd63dd6ee4da550, 0x3fee8a02742b51f0];

const EXPONENTS: [f64; 10] = [0.0, 1.0, -1.0, 13.0, -7.0, 2.5, 0.5, 1e-15, 1e19, -1e19];

/// The nearest numbers of the width.
fn rounded<T: Width>(numbers: &[f64]) -> Vec<T> {
    numbers.iter().map(|x| T::of(*x)).collect()
}

/// The direction with entries 1, 2, 3 and so on.
fn counting<T: Width>(n: usize) -> Vec<T> {
    (1..=n * n).map(|k| T::of(k as f64)).collect()
}

/// The matrix with these entries on the diagonal and next above it.
fn banded<T: Width>(n: usize, diagonal: T, above: T) -> Vec<T> {
    let entry = |i: usize, j: usize| match j.wrapping_sub(i) {
        0 => diagonal,
        1 => above,
        _ => T::zero(),
    };
    (0..n * n).map(|k| entry(k / n, k % n)).collect()
}

/// A matrix and a direction at which a number of frechet_expm's run on the block is not finite, though the exponential of the matrix is: the first output
/// is not finite, where the halvings are not refused.
fn directed<T: Width>((n, diagonal, above, corner): (usize, f64, f64, f64)) -> Call<T> {
    let mut direction = vec![T::zero(); n * n];
    direction[n * (n - 1)] = T::of(corner);
    Call::coded(FrechetExpm, n, &banded(n, T::of(diagonal), T::of(above)), &direction, T::zero())
}

/// The square root of [[1, x], [0, 1]], whose exponential halves the norm x / 2.
fn root_of_shear<T: Width>(x: T) -> Call<T> {
    Call::coded(Powm, 2, &banded(2, T::one(), x), &[], T::of(0.5))
}

/// The norm at question 17's limit, and its two neighbours. The 1 that cosm and sinm add, and what the directions add, is rounded away.
fn at_limit<T: Width>(function: Function) -> [Call<T>; 3] {
    let limit = T::power(MOST_HALVINGS as i32);
    [limit.next_down(), limit, limit.next_up()].map(|norm| match function {
        Powm => root_of_shear(T::of(2.0) * norm),
        _ => Call::coded(function, 2, &banded(2, T::zero(), norm), &counting(2), T::zero()),
    })
}

/// The matrix [[-x, -y], [y, -x]] of two powers of two.
fn turned<T: Width>((x, y): (i32, i32)) -> Vec<T> {
    let (x, y) = (T::power(x), T::power(y));
    vec![-x, -y, y, -x]
}

/// Matrices whose square root's passes run out, settle in the hundredth, and settle soon.
fn rooted<T: Width>() -> [Vec<T>; 3] {
    let [hundredth, _] = T::EDGES.hundredth;
    [rounded(&RUNS_OUT.map(f64::from_bits)), turned(hundredth), rounded(&[0.5, 1.0 / 3.0, 1.0 / 3.0, 0.25])]
}

/// diag(x, 0) for the largest number x. In f64 the passes of its logarithm's first root run out.
fn largest<T: Width>() -> Vec<T> {
    vec![T::largest(), T::zero(), T::zero(), T::zero()]
}

/// [[1, x], [0, 1]] for a power of two x. Its logarithm takes 100 roots of two passes each from 2^96 on, and from 2^97 on they leave a matrix that is far
/// from the identity.
fn shear<T: Width>(exponent: i32) -> Vec<T> {
    banded(2, T::one(), T::power(exponent))
}

/// Matrices whose square root is not symmetric: a triangle, and three shears. Both systems of the first shear are solved. LU refuses
/// frechet_sqrtm_sylvester's of the second, and frechet_sqrtm's of the third, whose entry stands below the diagonal.
fn nonsymmetric<T: Width>() -> [Vec<T>; 4] {
    let exponent = T::FRACTION as i32;
    let below = vec![T::one(), T::zero(), T::power(exponent * 3 / 4), T::one()];
    [rounded(&[3.0, 0.0, 2.0, 4.0]), shear(exponent), shear(exponent + 1), below]
}

/// Matrices whose logarithms take many steps or few, settled or not. The trace of the second is infinite: two roots run out, the second on NaNs, of which
/// no more are taken, and the series runs out, too.
fn with_logarithms<T: Width>() -> [Vec<T>; 7] {
    let [_, hundredth] = T::EDGES.hundredth;
    let [triangle, identity] = [[3.0, 0.0, 2.0, 4.0], [1.0, 0.0, 0.0, 1.0]].map(|x| rounded(&x));
    let infinite = banded(2, T::largest(), T::zero());
    [largest(), infinite, shear(96), shear(97), turned(hundredth), triangle, identity]
}

/// Matrices and directions for frechet_logm. Of the shears' two logarithms both settle, neither, the first alone, and the second alone: it is that of the
/// matrix and the root of the machine step times the direction.
fn with_directions<T: Width>() -> [(Vec<T>, Vec<T>); 5] {
    let size = T::power(96) / T::power(-(T::FRACTION as i32)).sqrt();
    let sheared = |exponent, x| (shear(exponent), banded(2, T::zero(), x));
    let one = T::one();
    [(largest(), counting(2)), sheared(96, one), sheared(97, one), sheared(96, size), sheared(97, -size)]
}

/// Calls of order 2 that show the steps of roots and logarithms, and whether they settle.
fn iterated<T: Width>(function: Function) -> Vec<Call<T>> {
    let call = |matrix: &[T], direction: &[T], p: f64| Call::coded(function, 2, matrix, direction, T::of(p));
    match function {
        Sqrtm | FrechetSqrtm | FrechetSqrtmSylvester => rooted().map(|x| call(&x, &counting(2), 0.0)).to_vec(),
        Logm => with_logarithms().map(|x| call(&x, &[], 0.0)).to_vec(),
        FrechetLogm => with_directions().map(|(x, e)| call(&x, &e, 0.0)).to_vec(),
        Powm => [(largest(), 0.5), (shear(96), 1e-12), (shear(97), 1e-12)].map(|(x, p)| call(&x, &[], p)).to_vec(),
        _ => Vec::new(),
    }
}

/// The calls of a function that has a code.
pub fn given<T: Width>(function: Function) -> Vec<Call<T>> {
    let mut calls = Vec::new();
    for (n, matrix) in matrices::<T>() {
        let matrix = rounded(&matrix);
        if function == Powm {
            calls.extend(EXPONENTS.map(|p| Call::coded(function, n, &matrix, &[], T::of(p))));
        } else {
            calls.push(Call::coded(function, n, &matrix, &counting(n), T::zero()));
        }
    }
    if function.halves() {
        calls.extend(at_limit(function));
    }
    if function == Powm {
        calls.push(root_of_shear(T::of(1e25)));
    }
    if function == FrechetSqrtmSylvester {
        calls.extend(nonsymmetric().map(|matrix| Call::coded(function, 2, &matrix, &counting(2), T::zero())));
    }
    calls.extend(iterated(function));
    if function.derives_root() {
        // Nearly half a turn: the system of order 4 has the smallest pivot.
        calls.push(Call::coded(function, 2, &rounded(&[-0.25, -0.015625, 0.015625, -0.25]), &counting(2), T::zero()));
    }
    if function == FrechetExpm {
        calls.extend(T::EDGES.directed.map(directed));
    }
    calls
}

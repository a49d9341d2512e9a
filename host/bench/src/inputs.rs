//! The sheets that are timed.

use compare::sheet::{Sheet, Task};

/// What is timed: the eleven functions, powm by an integer and by a fraction.
pub struct Timed {
    pub name: &'static str,
    pub code: usize,
    /// The exponent of powm.
    pub exponent: f64,
    /// The least order that is answered.
    pub least: usize,
}

const fn timed(name: &'static str, code: usize, exponent: f64, least: usize) -> Timed {
    Timed { name, code, exponent, least }
}

pub const TIMED: [Timed; 12] = [
    timed("expm", 0, 1.0, 2),
    timed("logm", 1, 1.0, 2),
    timed("sqrtm", 2, 1.0, 1),
    timed("powm", 3, 13.0, 2),
    timed("powm_fraction", 3, 2.5, 2),
    timed("cosm", 4, 1.0, 2),
    timed("sinm", 5, 1.0, 2),
    timed("frechet_expm", 6, 1.0, 1),
    timed("frechet_logm", 7, 1.0, 2),
    timed("frechet_sqrtm", 8, 1.0, 1),
    timed("cond_expm", 9, 1.0, 1),
    timed("frechet_sqrtm_sylvester", 10, 1.0, 1),
];

impl Timed {
    /// Its sheets, one for each order from the least to 8.
    pub fn sheets(&self) -> impl Iterator<Item = Sheet> + '_ {
        (self.least..=8).map(|n| sheet(n, self.code, self.exponent))
    }
}

/// A sheet of 16 equal tasks, with one direction and one exponent. The matrix is symmetric and positive definite, so that every function answers.
fn sheet(n: usize, code: usize, exponent: f64) -> Sheet {
    let entry = |i: usize, j: usize| if i == j { 1.5 + 0.25 * i as f64 } else { 0.25 / (1 + i + j) as f64 };
    let matrix = (0..n * n).map(|k| entry(k / n, k % n)).collect();
    let direction = (0..n * n).map(|k| 1.0 / (1 + k) as f64).collect();
    let tasks = vec![Task { code, index: 0 }; 16];
    Sheet { order: n, matrix, directions: vec![direction], exponents: vec![exponent], tasks }
}

/// A sheet with next to no arithmetic: 16 times the power 0, which is the identity.
pub fn overhead(n: usize) -> Sheet {
    sheet(n, 3, 0.0)
}

//! Sample sheets, with names for their files.

use crate::sheet::{Sheet, Task};
use vectors::call::CODES;

fn tasks(tasks: &[(usize, usize)]) -> Vec<Task> {
    tasks.iter().map(|(code, index)| Task { code: *code, index: *index }).collect()
}

/// A task of each code, with the index 0.
fn every_code() -> Vec<Task> {
    (0..CODES).map(|code| Task { code, index: 0 }).collect()
}

/// The 46 bytes at the end of document 01's bench: [[1, 1], [0, 1]] to the power 3.
fn shear() -> Sheet {
    let matrix = vec![1.0, 1.0, 0.0, 1.0];
    Sheet { order: 2, matrix, directions: vec![], exponents: vec![3.0], tasks: tasks(&[(3, 0)]) }
}

/// Every function once, of a definite matrix of order 3.
fn every_function() -> Sheet {
    let matrix = vec![2.0, 0.5, 0.0, 0.5, 3.0, 0.25, 0.0, 0.25, 1.5];
    let directions = vec![vec![0.0, 1.0, 0.0, 0.0, 0.0, 1.0, 0.0, 0.0, 0.0]];
    Sheet { order: 3, matrix, directions, exponents: vec![2.5], tasks: every_code() }
}

/// Tasks that are refused between tasks that are done: of order 2 with a singular matrix, a direction and an exponent that are not finite.
fn refusals() -> Sheet {
    let directions = vec![vec![1.0, 0.0, f64::INFINITY, 0.0], vec![1.0, 0.0, 0.0, 1.0]];
    let exponents = vec![-1.0, f64::NAN, 0.0];
    let tasks = tasks(&[(3, 0), (3, 1), (3, 2), (1, 0), (2, 0), (6, 0), (6, 1), (0, 0)]);
    Sheet { order: 2, matrix: vec![0.0; 4], directions, exponents, tasks }
}

/// Order 1: 11 where a function of a number would be needed, and the roots, derivatives and condition that are answered.
fn order_1() -> Sheet {
    Sheet { order: 1, matrix: vec![4.0], directions: vec![vec![1.0]], exponents: vec![0.5], tasks: every_code() }
}

/// Both derivatives of a root that is not symmetric.
fn nonsymmetric() -> Sheet {
    let (matrix, direction) = (vec![3.0, 0.0, 2.0, 4.0], vec![0.5, 0.0, 1.0, 0.25]);
    Sheet { order: 2, matrix, directions: vec![direction], exponents: vec![], tasks: tasks(&[(8, 0), (10, 0)]) }
}

/// Square roots of a number and nothing else.
fn roots() -> Sheet {
    let tasks = tasks(&[(2, 0), (8, 0), (8, 1)]);
    Sheet { order: 1, matrix: vec![2.0], directions: vec![vec![1.0], vec![f64::NAN]], exponents: vec![], tasks }
}

/// The powers of document 01's bench: the zero matrix to the power -1 and 0; and the condition of the zero matrix of order 4.
fn zero() -> Sheet {
    let tasks = tasks(&[(3, 0), (3, 1), (9, 0)]);
    Sheet { order: 4, matrix: vec![0.0; 16], directions: vec![], exponents: vec![-1.0, 0.0], tasks }
}

/// A norm above 2^64, and a logarithm that is as large: the functions that halve are refused 17, the square root is answered.
fn too_many_halvings() -> Sheet {
    let tasks = tasks(&[(0, 0), (2, 0), (3, 0), (4, 0), (5, 0), (6, 0), (9, 0)]);
    let (matrix, direction) = (vec![1.0, 1e25, 0.0, 1.0], vec![1.0, 0.0, 0.0, 1.0]);
    Sheet { order: 2, matrix, directions: vec![direction], exponents: vec![0.5], tasks }
}

/// The longest sheet, 4,708 bytes, with the longest line for each task.
fn longest() -> Sheet {
    let entry = |i: usize, j: usize| if i == j { 9.0 + i as f64 } else { 1.0 / (1 + i + j) as f64 };
    let matrix: Vec<f64> = (0..64).map(|k| entry(k / 8, k % 8)).collect();
    let direction = |d: usize| (0..64).map(|k| if k % 8 == d { 1.0 } else { 0.0 }).collect();
    let directions: Vec<Vec<f64>> = (0..8).map(direction).collect();
    let every: Vec<(usize, usize)> = (0..16).map(|k| (6, k % 8)).collect();
    Sheet { order: 8, matrix, directions, exponents: vec![1.0; 8], tasks: tasks(&every) }
}

/// Names and bytes of all samples.
pub fn samples() -> Vec<(&'static str, Vec<u8>)> {
    let mut cut = shear().bytes();
    cut.truncate(20);
    let mut bad_code = shear().bytes();
    bad_code[44] = CODES as u8;
    vec![
        ("shear", shear().bytes()),
        ("every_function", every_function().bytes()),
        ("refusals", refusals().bytes()),
        ("order_1", order_1().bytes()),
        ("nonsymmetric", nonsymmetric().bytes()),
        ("roots", roots().bytes()),
        ("zero", zero().bytes()),
        ("too_many_halvings", too_many_halvings().bytes()),
        ("longest", longest().bytes()),
        ("cut", cut),
        ("bad_code", bad_code),
    ]
}

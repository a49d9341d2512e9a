//! The source's functions on slices of numbers, f64 or f32, row by row. The source is compiled as it is; see build.rs.
//! A matrix is given by its rows, its columns and its numbers.

use bytemuck::Zeroable;
use oxiblas_core::scalar::{Field, Real};
use oxiblas_matrix::MatRef;
use utils::kronecker;
use utils::matfun::functions;

pub use lu::LuError;
pub use utils::matfun::types::MatFunError;

include!(concat!(env!("OUT_DIR"), "/tree.rs"));

/// A name that the source's blocked LU uses, which nobody here calls.
pub mod workspace {
    pub fn optimal_block_size_lu(_rows: usize, _columns: usize) -> usize {
        unimplemented!()
    }
}

/// The numbers that the source's functions take: f64 and f32.
pub trait Number: Field + Real + Zeroable {}

impl<T: Field + Real + Zeroable> Number for T {}

type Two<T> = (Vec<T>, Vec<T>);

pub fn expm<T: Number>(rows: usize, columns: usize, a: &[T]) -> Result<Vec<T>, MatFunError> {
    Ok(functions::expm(MatRef::new(rows, columns, a))?.into_numbers())
}

pub fn logm<T: Number>(rows: usize, columns: usize, a: &[T]) -> Result<Vec<T>, MatFunError> {
    Ok(functions::logm(MatRef::new(rows, columns, a))?.into_numbers())
}

pub fn sqrtm<T: Number>(rows: usize, columns: usize, a: &[T]) -> Result<Vec<T>, MatFunError> {
    Ok(functions::sqrtm(MatRef::new(rows, columns, a))?.into_numbers())
}

pub fn powm<T: Number>(rows: usize, columns: usize, a: &[T], p: T) -> Result<Vec<T>, MatFunError> {
    Ok(functions::powm(MatRef::new(rows, columns, a), p)?.into_numbers())
}

pub fn cosm<T: Number>(rows: usize, columns: usize, a: &[T]) -> Result<Vec<T>, MatFunError> {
    Ok(functions::cosm(MatRef::new(rows, columns, a))?.into_numbers())
}

pub fn sinm<T: Number>(rows: usize, columns: usize, a: &[T]) -> Result<Vec<T>, MatFunError> {
    Ok(functions::sinm(MatRef::new(rows, columns, a))?.into_numbers())
}

/// The exponential and its derivative.
pub fn frechet_expm<T: Number>(
    rows: usize,
    columns: usize,
    a: &[T],
    e_rows: usize,
    e_columns: usize,
    e: &[T],
) -> Result<Two<T>, MatFunError> {
    let (x, y) = functions::frechet_expm(MatRef::new(rows, columns, a), MatRef::new(e_rows, e_columns, e))?;
    Ok((x.into_numbers(), y.into_numbers()))
}

/// The logarithm and its derivative.
pub fn frechet_logm<T: Number>(
    rows: usize,
    columns: usize,
    a: &[T],
    e_rows: usize,
    e_columns: usize,
    e: &[T],
) -> Result<Two<T>, MatFunError> {
    let (x, y) = functions::frechet_logm(MatRef::new(rows, columns, a), MatRef::new(e_rows, e_columns, e))?;
    Ok((x.into_numbers(), y.into_numbers()))
}

/// The square root and its derivative.
pub fn frechet_sqrtm<T: Number>(
    rows: usize,
    columns: usize,
    a: &[T],
    e_rows: usize,
    e_columns: usize,
    e: &[T],
) -> Result<Two<T>, MatFunError> {
    let (x, y) = functions::frechet_sqrtm(MatRef::new(rows, columns, a), MatRef::new(e_rows, e_columns, e))?;
    Ok((x.into_numbers(), y.into_numbers()))
}

pub fn cond_expm<T: Number>(rows: usize, columns: usize, a: &[T]) -> Result<T, MatFunError> {
    functions::cond_expm(MatRef::new(rows, columns, a))
}

pub fn kron<T: Number>(rows: usize, columns: usize, a: &[T], b_rows: usize, b_columns: usize, b: &[T]) -> Vec<T> {
    kronecker::kron(MatRef::new(rows, columns, a), MatRef::new(b_rows, b_columns, b)).into_numbers()
}

/// Ends the program where a matrix is not square, as the source does.
pub fn kron_sum<T: Number>(rows: usize, columns: usize, a: &[T], b_rows: usize, b_columns: usize, b: &[T]) -> Vec<T> {
    kronecker::kron_sum(MatRef::new(rows, columns, a), MatRef::new(b_rows, b_columns, b)).into_numbers()
}

/// A factorization by the source's `Lu::compute`. The source keeps its fields to itself, so factors come from a matrix only.
pub struct Lu<T: Number>(lu::Lu<T>);

impl<T: Number> Lu<T> {
    pub fn compute(rows: usize, columns: usize, a: &[T]) -> Result<Lu<T>, LuError> {
        Ok(Lu(lu::Lu::compute(MatRef::new(rows, columns, a))?))
    }

    /// The multipliers below the diagonal, and the upper factor on and above it.
    pub fn factors(&self) -> Vec<T> {
        self.0.lu_matrix().numbers().to_vec()
    }

    /// Entry k is the row that row k was exchanged with at step k: from k to n - 1, and k where nothing was exchanged.
    pub fn pivots(&self) -> &[usize] {
        self.0.pivot()
    }

    pub fn solve(&self, rows: usize, columns: usize, b: &[T]) -> Result<Vec<T>, LuError> {
        Ok(self.0.solve(MatRef::new(rows, columns, b))?.into_numbers())
    }

    pub fn determinant(&self) -> T {
        self.0.determinant()
    }
}

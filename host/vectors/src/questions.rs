//! Questions 1 to 11 of document 01, asked in its order. The source asks 1, 2, 3 and 10 itself (tests/refusals.rs compares them); 4 to 9
//! and 11 are document 01's own.

use crate::call::{Call, Function::*, Refusal};
use crate::width::Width;

fn at_most(x: usize, limit: usize) -> Result<(), Refusal> {
    if x <= limit { Ok(()) } else { Err(Refusal(4, x, limit)) }
}

fn exactly(found: usize, wanted: usize) -> Result<(), Refusal> {
    if found == wanted { Ok(()) } else { Err(Refusal(5, found, wanted)) }
}

fn all_finite<T: Width>(numbers: &[T], columns: usize, number: usize) -> Result<(), Refusal> {
    match numbers.iter().position(|x| !x.is_finite()) {
        Some(at) => Err(Refusal(number, at / columns, at % columns)),
        None => Ok(()),
    }
}

/// Question 4.
fn limits<T>(c: &Call<T>) -> Result<(), Refusal> {
    if c.function.kronecker() {
        let sizes = [c.rows, c.columns, c.companion_rows, c.companion_columns];
        // Sizes are asked before the products that they would take past the largest number.
        let products = [c.rows.saturating_mul(c.companion_rows), c.columns.saturating_mul(c.companion_columns)];
        return sizes.iter().chain(&products).try_for_each(|x| at_most(*x, 64));
    }
    if c.function.coded() {
        return at_most(c.rows, 8);
    }
    at_most(c.rows, 64)?;
    if c.function == LuSolve { at_most(c.companion_columns, 64) } else { Ok(()) }
}

/// Question 5.
fn lengths<T: Width>(c: &Call<T>) -> Result<(), Refusal> {
    exactly(c.matrix.len(), c.rows * c.columns)?;
    if c.function.has_companion() {
        exactly(c.companion.len(), c.companion_rows * c.companion_columns)?;
    }
    if c.function.lu() {
        exactly(c.pivots.len(), c.rows)?;
    }
    for i in 0..c.function.output_count() {
        exactly(c.outputs[i], c.output_length())?;
    }
    if c.function.has_workspace() && c.room < 8192 {
        return Err(Refusal(5, c.room, 8192));
    }
    Ok(())
}

/// The first "no", if any.
pub fn asked<T: Width>(c: &Call<T>) -> Result<(), Refusal> {
    let f = c.function;
    if f.coded() && c.rows == 0 {
        return Err(Refusal(1, 0, 0));
    }
    if f != Kron && c.rows != c.columns {
        return Err(Refusal(2, c.rows, c.columns));
    }
    let fits = match f {
        _ if f.directed() => c.companion_rows == c.rows && c.companion_columns == c.rows,
        LuSolve => c.companion_rows == c.rows,
        KronSum => c.companion_rows == c.companion_columns,
        _ => true,
    };
    if !fits {
        return Err(Refusal(3, c.companion_rows, c.companion_columns));
    }
    limits(c)?;
    lengths(c)?;
    if f.coded() {
        all_finite(&c.matrix, c.columns, 6)?;
    }
    if f.directed() {
        all_finite(&c.companion, c.companion_columns, 7)?;
    }
    if f == Powm && !c.exponent.is_finite() {
        return Err(Refusal(8, 0, 0));
    }
    if f == LuSolve || f == LuDeterminant {
        for (k, p) in c.pivots.iter().enumerate() {
            if *p < k || *p >= c.rows {
                return Err(Refusal(9, k, *p));
            }
        }
    }
    if c.rows == 1 {
        let x = c.matrix.first().copied().unwrap_or_default();
        let defined = match f {
            Logm | FrechetLogm => x > T::zero(),
            Sqrtm | FrechetSqrtm | FrechetSqrtmSylvester => x >= T::zero(),
            _ => true,
        };
        if !defined {
            return Err(Refusal(10, 0, 0));
        }
        if matches!(f, Expm | Logm | Powm | Cosm | Sinm | FrechetLogm) {
            return Err(Refusal(11, 0, 0));
        }
    }
    Ok(())
}

//! Where document 01's questions 1, 2, 3 and 10 refuse, the source refuses for the same reason.

use oracle::{Lu, LuError, MatFunError};
use std::panic::catch_unwind;
use vectors::call::{Call, FUNCTIONS, Function::*, Refusal};
use vectors::cases::case;
use vectors::questions::asked;
use vectors::random::Random;
use vectors::width::Width;

/// The source's refusal, or none. Where kron_sum's assertions fail, that is NotSquare of the matrix that is not square.
fn source<T: Width + std::panic::RefUnwindSafe>(c: &Call<T>) -> Option<MatFunError> {
    let (r, k, a) = (c.rows, c.columns, &c.matrix[..]);
    let (s, l, e) = (c.companion_rows, c.companion_columns, &c.companion[..]);
    match c.function {
        Expm => oracle::expm(r, k, a).err(),
        Logm => oracle::logm(r, k, a).err(),
        Sqrtm => oracle::sqrtm(r, k, a).err(),
        Powm => oracle::powm(r, k, a, c.exponent).err(),
        Cosm => oracle::cosm(r, k, a).err(),
        Sinm => oracle::sinm(r, k, a).err(),
        FrechetExpm => oracle::frechet_expm(r, k, a, s, l, e).err(),
        FrechetLogm => oracle::frechet_logm(r, k, a, s, l, e).err(),
        FrechetSqrtm | FrechetSqrtmSylvester => oracle::frechet_sqrtm(r, k, a, s, l, e).err(),
        CondExpm => oracle::cond_expm(r, k, a).err(),
        LuSolve if r == k => {
            let mut identity = vec![T::zero(); r * r];
            (0..r).for_each(|i| identity[i * r + i] = T::one());
            match Lu::compute(r, r, &identity).ok()?.solve(s, l, e) {
                Err(LuError::DimensionMismatch { .. }) => Some(MatFunError::NotSquare { nrows: s, ncols: l }),
                _ => None,
            }
        }
        LuCompute | LuSolve | LuDeterminant => match Lu::compute(r, k, a) {
            Err(LuError::NotSquare { nrows, ncols }) => Some(MatFunError::NotSquare { nrows, ncols }),
            _ => None,
        },
        Kron => None,
        KronSum => {
            let panicked = catch_unwind(|| oracle::kron_sum(r, k, a, s, l, e)).is_err();
            let (nrows, ncols) = if r == k { (s, l) } else { (r, k) };
            panicked.then_some(MatFunError::NotSquare { nrows, ncols })
        }
    }
}

fn refuses_too<T: Width + std::panic::RefUnwindSafe>() {
    let mut seen = [0; 11];
    for (function, _) in FUNCTIONS {
        let mut r = Random::new(11);
        for _ in 0..1500 {
            let c = case::<T>(function, &mut r);
            if c.matrix.len() != c.rows * c.columns || c.companion.len() != c.companion_rows * c.companion_columns {
                continue;
            }
            let Err(Refusal(number, x, y)) = asked(&c) else { continue };
            let wanted = match number {
                1 => MatFunError::EmptyMatrix,
                2 | 3 => MatFunError::NotSquare { nrows: x, ncols: y },
                10 => MatFunError::NotDefined,
                _ => continue,
            };
            assert_eq!(source(&c), Some(wanted), "{c:?}");
            seen[number] += 1;
        }
    }
    assert!([1, 2, 3, 10].iter().all(|k| seen[*k] > 20), "{seen:?}");
}

#[test]
fn the_source_refuses_too() {
    // kron_sum's assertions are expected.
    std::panic::set_hook(Box::new(|_| {}));
    refuses_too::<f64>();
    refuses_too::<f32>();
}

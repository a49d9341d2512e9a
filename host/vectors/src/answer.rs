//! The answer of a call: document 01's questions and question 17 of document 02's #102, then the source, or for #106 the source's root and its LU, and the
//! report of #103 and #105.

use crate::call::{Call, Done, Function::*, Outcome, Refusal};
use crate::norms::{
    MOST_HALVINGS, block, even_direction, frobenius_norm, halvings, near_power_of_two, one_norm, source_halvings,
};
use crate::questions::asked;
use crate::reports::{repeated, settled, smallest, steps, whole};
use crate::sylvester::frechet_sqrtm_sylvester;
use crate::width::Width;
use oracle::{Lu, LuError, MatFunError};

/// What the source gives: its outputs, one or two.
type Given<T> = Result<[Vec<T>; 2], MatFunError>;

fn one<T>(given: Result<Vec<T>, MatFunError>) -> Given<T> {
    given.map(|x| [x, Vec::new()])
}

fn two<T>(given: Result<(Vec<T>, Vec<T>), MatFunError>) -> Given<T> {
    given.map(|(x, y)| [x, y])
}

/// What is reported beside the halvings is that of a call without factorings and iterations.
fn done<T>(halvings: usize, outputs: [Vec<T>; 2]) -> Outcome<T> {
    let (near, smallest, steps, settled) = (false, f64::INFINITY, 0, true);
    Outcome::Done(Done { halvings, near, smallest, steps, settled, outputs, pivots: Vec::new() })
}

/// A function without halvings. After questions 1 to 11 the source's only refusal is NotConverged.
fn plain<T>(given: Given<T>) -> Outcome<T> {
    match given {
        Ok(outputs) => done(0, outputs),
        Err(MatFunError::NotConverged) => Outcome::Refused(Refusal(13, 0, 0)),
        Err(other) => panic!("the source refused {other:?} where questions 1 to 11 passed"),
    }
}

/// A function whose halvings are set by this norm, or by the norm + 1 for cosine and sine. The source does not ask questions 12 and 17, and at 12 it would
/// not end. Question 17 is asked of document 01's count, so its answer is known where the source counts otherwise, too.
fn halved<T: Width>(norm: T, run: impl Fn() -> Given<T>) -> Outcome<T> {
    if !norm.is_finite() {
        return Outcome::Refused(Refusal(12, 0, 0));
    }
    let s = halvings(norm);
    if s > MOST_HALVINGS {
        return Outcome::Refused(Refusal(17, s, 0));
    }
    if source_halvings(norm) != s {
        return Outcome::Parted;
    }
    match plain(run()) {
        Outcome::Done(d) => Outcome::Done(Done { halvings: s, near: near_power_of_two(norm), ..d }),
        refused => refused,
    }
}

fn power<T: Width>(n: usize, a: &[T], p: T) -> Outcome<T> {
    let run = || one(oracle::powm(n, n, a, p));
    if whole(p).is_some() {
        return plain(run());
    }
    // A fractional power's exponential halves its argument, which is the exponent times the logarithm. The answer reports 0, refusal 17
    // the halvings.
    match oracle::logm(n, n, a) {
        Err(_) => plain(run()),
        Ok(log) => {
            let scaled: Vec<T> = log.iter().map(|x| p * *x).collect();
            match halved(one_norm(n, &scaled), run) {
                Outcome::Done(d) => Outcome::Done(Done { halvings: 0, ..d }),
                refused => refused,
            }
        }
    }
}

/// The ratio, and both norms. The source gives the ratio only; the norms are those of its frechet_expm's outputs.
fn condition<T: Width>(n: usize, a: &[T]) -> Given<T> {
    let e = even_direction(n);
    let (exponential, derivative) = oracle::frechet_expm(n, n, a, n, n, &e)?;
    let ratio = oracle::cond_expm(n, n, a)?;
    Ok([vec![ratio, frobenius_norm(&derivative), frobenius_norm(&exponential)], Vec::new()])
}

/// The source's factors of the matrix behind a call of solve or determinant, which must be those that the call is given.
fn factors<T: Width>(c: &Call<T>) -> Lu<T> {
    let bits = |x: &[T]| x.iter().map(|x| crate::call::word(*x)).collect::<Vec<u64>>();
    let lu = Lu::compute(c.rows, c.rows, &c.factored).unwrap_or_else(|e| panic!("{e}"));
    assert_eq!(bits(&lu.factors()), bits(&c.matrix));
    assert_eq!(lu.pivots(), c.pivots);
    lu
}

/// What the source does with a call that passes questions 1 to 11.
fn computed<T: Width>(c: &Call<T>) -> Outcome<T> {
    let (n, a, m, e) = (c.rows, &c.matrix[..], c.companion_columns, &c.companion[..]);
    match c.function {
        Expm => halved(one_norm(n, a), || one(oracle::expm(n, n, a))),
        Logm => plain(one(oracle::logm(n, n, a))),
        Sqrtm => plain(one(oracle::sqrtm(n, n, a))),
        Powm => power(n, a, c.exponent),
        Cosm => halved(one_norm(n, a) + T::one(), || one(oracle::cosm(n, n, a))),
        Sinm => halved(one_norm(n, a) + T::one(), || one(oracle::sinm(n, n, a))),
        FrechetExpm => halved(one_norm(2 * n, &block(n, a, e)), || two(oracle::frechet_expm(n, n, a, n, n, e))),
        FrechetLogm => plain(two(oracle::frechet_logm(n, n, a, n, n, e))),
        FrechetSqrtm => plain(two(oracle::frechet_sqrtm(n, n, a, n, n, e))),
        FrechetSqrtmSylvester => plain(two(frechet_sqrtm_sylvester(n, a, e))),
        CondExpm => halved(one_norm(2 * n, &block(n, a, &even_direction(n))), || condition(n, a)),
        LuCompute => match Lu::compute(n, n, a) {
            Ok(lu) => Outcome::Done(Done {
                halvings: 0,
                near: false,
                smallest: f64::INFINITY,
                steps: 0,
                settled: true,
                outputs: [lu.factors(), Vec::new()],
                pivots: lu.pivots().to_vec(),
            }),
            Err(LuError::Singular { index }) => Outcome::Refused(Refusal(14, index, 0)),
            Err(other) => panic!("{other}"),
        },
        LuSolve => done(0, [factors(c).solve(n, m, e).unwrap(), Vec::new()]),
        LuDeterminant => done(0, [vec![factors(c).determinant()], Vec::new()]),
        Kron => done(0, [oracle::kron(n, c.columns, a, c.companion_rows, m, e), Vec::new()]),
        KronSum => done(0, [oracle::kron_sum(n, n, a, m, m, e), Vec::new()]),
    }
}

/// The steps that lead to the outputs, or to refusal 13 or 14, are repeated for the report.
pub fn answer<T: Width>(c: &Call<T>) -> Outcome<T> {
    if let Err(refusal) = asked(c) {
        return Outcome::Refused(refusal);
    }
    let mut outcome = computed(c);
    match &mut outcome {
        Outcome::Done(done) => {
            let run = repeated(c, Some(&done.outputs));
            done.smallest = smallest(&run.factorings);
            (done.steps, done.settled) = (steps(&run.iterations), settled(&run.iterations));
        }
        Outcome::Refused(Refusal(13 | 14, _, _)) => drop(repeated(c, None)),
        _ => {}
    }
    outcome
}

//! Calls in f32, of the port and of the source, and the port's f64 calls beside them. What a call needs is lent once and not filled anew between runs.

use crate::timing::least_times;
use calls::check::{Verdict, check};
use calls::entries::{Entry, Port};
use calls::lent::Lent;
use oracle::Lu;
use std::hint::black_box;
use std::process::exit;
use std::time::Duration;
use vectors::answer::answer;
use vectors::call::{Call, FUNCTIONS, Function, Function::*};
use vectors::random::Random;
use vectors::sylvester::frechet_sqrtm_sylvester;
use vectors::width::Width;

/// What is timed: a name, the function, and the exponent of powm.
fn timed() -> impl Iterator<Item = (&'static str, Function, f64)> {
    let exponent = |function| if function == Powm { 13.0 } else { 0.0 };
    let all = FUNCTIONS.into_iter().map(move |(function, name)| (name, function, exponent(function)));
    all.chain([("powm_fraction", Powm, 2.5)])
}

/// The orders that are answered.
fn orders(function: Function) -> std::ops::RangeInclusive<usize> {
    let least = if matches!(function, Expm | Logm | Powm | Cosm | Sinm | FrechetLogm) { 2 } else { 1 };
    least..=8
}

/// A call of order n. The matrix is symmetric and positive definite, so that every function answers; the companion has the entries 1, 1/2, 1/3 and so on.
fn call<T: Width>(function: Function, n: usize, exponent: f64) -> Call<T> {
    let entry = |i: usize, j: usize| if i == j { 1.5 + 0.25 * i as f64 } else { 0.25 / (1 + i + j) as f64 };
    let mut c = Call::new(function);
    (c.rows, c.columns, c.exponent) = (n, n, T::of(exponent));
    c.matrix = (0..n * n).map(|k| T::of(entry(k / n, k % n))).collect();
    if function.has_companion() {
        (c.companion_rows, c.companion_columns) = (n, n);
        c.companion = (0..n * n).map(|k| T::of(1.0 / (1 + k) as f64)).collect();
    }
    if function.lu() {
        c.pivots = vec![0; n];
    }
    if matches!(function, LuSolve | LuDeterminant) {
        let lu = Lu::compute(n, n, &c.matrix).expect("the matrix is not singular");
        (c.pivots, c.factored) = (lu.pivots().to_vec(), std::mem::replace(&mut c.matrix, lu.factors()));
    }
    (0..function.output_count()).for_each(|i| c.outputs[i] = c.output_length());
    c.room = if function.has_workspace() { 8192 } else { 0 };
    c
}

/// The source's factors of the matrix of a call of solve or determinant.
fn factors<T: Width>(c: &Call<T>) -> Option<Lu<T>> {
    let given = matches!(c.function, LuSolve | LuDeterminant);
    given.then(|| Lu::compute(c.rows, c.rows, &c.factored).expect("the matrix is not singular"))
}

/// The source's call; what it returns is dropped.
fn source<T: Width>(c: &Call<T>, lu: &Option<Lu<T>>) {
    let (n, a, e) = (c.rows, &c.matrix[..], &c.companion[..]);
    let factored = || lu.as_ref().expect("factors");
    match c.function {
        Expm => drop(black_box(oracle::expm(n, n, a))),
        Logm => drop(black_box(oracle::logm(n, n, a))),
        Sqrtm => drop(black_box(oracle::sqrtm(n, n, a))),
        Powm => drop(black_box(oracle::powm(n, n, a, c.exponent))),
        Cosm => drop(black_box(oracle::cosm(n, n, a))),
        Sinm => drop(black_box(oracle::sinm(n, n, a))),
        FrechetExpm => drop(black_box(oracle::frechet_expm(n, n, a, n, n, e))),
        FrechetLogm => drop(black_box(oracle::frechet_logm(n, n, a, n, n, e))),
        FrechetSqrtm => drop(black_box(oracle::frechet_sqrtm(n, n, a, n, n, e))),
        CondExpm => drop(black_box(oracle::cond_expm(n, n, a))),
        FrechetSqrtmSylvester => drop(black_box(frechet_sqrtm_sylvester(n, a, e))),
        LuCompute => drop(black_box(Lu::compute(n, n, a))),
        LuSolve => drop(black_box(factored().solve(n, n, e))),
        LuDeterminant => drop(black_box(factored().determinant())),
        Kron => drop(black_box(oracle::kron(n, n, a, n, n, e))),
        KronSum => drop(black_box(oracle::kron_sum(n, n, a, n, n, e))),
    }
}

/// What the call is lent, after it was made once and did as the source.
fn checked<T: Width>(entry: Entry<T>, c: &Call<T>) -> Lent<T> {
    let before = Lent::new(c, &mut Random::new(1));
    let mut after = before.clone();
    let told = entry(c, &mut after);
    assert_eq!(check(c, &answer(c), &before, &after, told), Ok(Verdict::Compared));
    after
}

fn report(narrow: Entry<f32>, wide: Entry<f64>, samples: usize, least: Duration) {
    for (name, function, exponent) in timed() {
        for n in orders(function) {
            let (c32, c64) = (call::<f32>(function, n, exponent), call::<f64>(function, n, exponent));
            let (mut lent32, mut lent64) = (checked(narrow, &c32), checked(wide, &c64));
            let lu = factors(&c32);
            let [port, source, port64] = least_times(
                samples,
                least,
                &mut [
                    &mut || {
                        black_box(narrow(black_box(&c32), &mut lent32));
                    },
                    &mut || source(black_box(&c32), black_box(&lu)),
                    &mut || {
                        black_box(wide(black_box(&c64), &mut lent64));
                    },
                ],
            );
            println!("time32 {name} {n} port {port:.0} ns source {source:.0} ns port64 {port64:.0} ns");
            println!("ratio32 {name} {n} {:.2}", port / source);
            println!("width {name} {n} {:.2}", port / port64);
        }
    }
}

/// Times every function's calls.
pub fn calls(samples: usize, least: Duration) {
    let (Some(narrow), Some(wide)) = (f32::port(), f64::port()) else {
        let absent = if f32::port().is_none() { f32::ABSENT } else { f64::ABSENT };
        eprintln!("bench: {absent}");
        exit(2)
    };
    report(narrow, wide, samples, least);
}

#[cfg(test)]
mod tests {
    use super::*;
    use calls::entries::Told;
    use vectors::call::Outcome;

    /// Every call that is timed is answered, inside the compared domain, at both widths.
    fn are_compared<T: Width>() {
        for (name, function, exponent) in timed() {
            for n in orders(function) {
                let c = call::<T>(function, n, exponent);
                assert!(matches!(answer(&c), Outcome::Done(done) if !done.near), "{name} {n}");
            }
        }
    }

    #[test]
    fn the_calls_are_compared() {
        are_compared::<f64>();
        are_compared::<f32>();
    }

    /// The port's side must do as the source before it is timed.
    #[test]
    #[should_panic = "an output is not"]
    fn a_call_that_differs_is_not_timed() {
        let wrong = |_: &Call<f32>, lent: &mut Lent<f32>| {
            lent.outputs[0].lent_mut()[0] = 0;
            Told { number: 13, report: [0, 0], smallest: f64::INFINITY.to_bits(), steps: 0, settled: false }
        };
        checked(&wrong, &call(Expm, 2, 0.0));
    }

    /// The report, where the libraries are there.
    #[test]
    fn the_report_runs() {
        if let (Some(narrow), Some(wide)) = (f32::port(), f64::port()) {
            report(narrow, wide, 1, Duration::ZERO);
        }
    }
}

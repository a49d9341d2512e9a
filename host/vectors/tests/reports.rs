//! The report of a call: the smallest pivot, document 02's #103, and the steps and whether they settled, #105.

use vectors::answer::answer;
use vectors::call::{Call, FUNCTIONS, Function, Function::*, Outcome, Refusal};
use vectors::cases::case;
use vectors::given::given;
use vectors::norms::{block, even_direction};
use vectors::random::Random;
use vectors::reports::{Iteration, Part, Run, repeated, settled, smallest_pivot, steps, whole};
use vectors::sylvester::transposed;
use vectors::width::Width;

/// The nearest numbers of the width.
fn rounded<T: Width>(numbers: &[f64]) -> Vec<T> {
    numbers.iter().map(|x| T::of(*x)).collect()
}

/// A call of LU on a square matrix of order n.
fn factoring_of<T: Width>(n: usize, a: &[T]) -> Call<T> {
    let mut c = Call::new(LuCompute);
    (c.rows, c.columns, c.matrix) = (n, n, a.to_vec());
    (c.pivots, c.outputs[0], c.room) = (vec![0; n], n * n, 8192);
    c
}

fn factoring<T: Width>(n: usize, a: &[f64]) -> Call<T> {
    factoring_of(n, &rounded(a))
}

/// A call of order 2 with a code.
fn coded<T: Width>(function: Function, a: [f64; 4], exponent: f64) -> Call<T> {
    Call::coded(function, 2, &rounded(&a), &rounded(&[1.0, 2.0, 3.0, 4.0]), T::of(exponent))
}

/// The smallest pivot that the call reports.
fn reported<T: Width>(call: &Call<T>) -> f64 {
    answer(call).smallest().expect("the source counts other halvings")
}

/// The steps that the call reports, and whether they settled.
fn iterated<T: Width>(call: &Call<T>) -> (usize, bool) {
    answer(call).iterated().expect("the source counts other halvings")
}

/// The run of a call that is done.
fn run_of<T: Width>(call: &Call<T>) -> Option<Run<T>> {
    match answer(call) {
        Outcome::Done(done) => Some(repeated(call, Some(&done.outputs))),
        _ => None,
    }
}

fn of_lu<T: Width>() {
    let lu = |n: usize, a: &[f64]| reported(&factoring::<T>(n, a));
    assert_eq!(lu(2, &[0.0, 1.0, 2.0, 0.0]), 1.0);
    assert_eq!(lu(2, &[-0.5, 0.0, 0.0, 3.0]), 0.5);
    // NaNs pass and are skipped.
    assert_eq!(lu(1, &[f64::NAN]), f64::INFINITY);
    assert_eq!(lu(2, &[1.0, 0.0, 0.0, f64::NAN]), 1.0);
    assert_eq!(lu(2, &[f64::NAN, 0.0, 0.0, 1.0]), f64::INFINITY);
    // An infinite pivot counts as infinity.
    assert_eq!(lu(1, &[f64::NEG_INFINITY]), f64::INFINITY);
    assert_eq!(lu(0, &[]), f64::INFINITY);
    // The first column passes and the second is refused.
    assert!(matches!(answer(&factoring::<T>(2, &[1.0, 0.0, 0.0, 0.0])), Outcome::Refused(Refusal(14, 1, 0))));
    assert_eq!(lu(2, &[1.0, 0.0, 0.0, 0.0]), f64::INFINITY);
    // The pivots stand on the diagonal, whatever is beside it.
    assert_eq!(smallest_pivot(2, &rounded::<T>(&[-4.0, 0.25, 0.125, 3.0])).wide(), 3.0);
}

#[test]
fn lu_reports_its_smallest_pivot() {
    of_lu::<f64>();
    of_lu::<f32>();
}

/// Bits of the smallest pivot in f64 and of the widened one in f32, for [[3, 0], [2, 4]], the direction [[1, 2], [3, 4]] and an exponent.
const REPORTED: [(Function, f64, u64, u64); 11] = [
    (Expm, 0.0, 0x3fe8e3f76d326011, 0x3fe8e3f780000000),
    (Logm, 0.0, 0x3ff08f106b154902, 0x3ff08f1060000000),
    (Sqrtm, 0.0, 0x3fe0000000000005, 0x3fe0000000000000),
    (Powm, -7.0, 0x4008000000000000, 0x4008000000000000),
    (Powm, 3.0, 0x7ff0000000000000, 0x7ff0000000000000),
    (Powm, 0.5, 0x3fe692b8b3f8afbf, 0x3fe692b7e0000000),
    (FrechetExpm, 0.0, 0x3fec3b27e3a8ad9b, 0x3fec3b27e0000000),
    (FrechetLogm, 0.0, 0x3ff08f106b154902, 0x3ff08f1060000000),
    (FrechetSqrtm, 0.0, 0x3fe0000000000005, 0x3fe0000000000000),
    (CondExpm, 0.0, 0x3fe8e3f76d326011, 0x3fe8e3f780000000),
    (FrechetSqrtmSylvester, 0.0, 0x3fe0000000000005, 0x3fe0000000000000),
];

#[test]
fn functions_report_the_smallest_pivot_of_their_factorings() {
    let a = [3.0, 0.0, 2.0, 4.0];
    for (function, p, wide, narrow) in REPORTED {
        assert_eq!(reported(&coded::<f64>(function, a, p)).to_bits(), wide, "{} {p}", function.name());
        assert_eq!(reported(&coded::<f32>(function, a, p)).to_bits(), narrow, "{} {p}", function.name());
    }
    assert_eq!((reported(&factoring::<f64>(2, &a)), reported(&factoring::<f32>(2, &a))), (3.0, 3.0));
    // The first pass of the Hilbert matrix factors it, with the second pivot 1/3 - 1/4.
    let hilbert = [1.0, 0.5, 0.5, 1.0 / 3.0];
    assert_eq!(reported(&coded::<f64>(Sqrtm, hilbert, 0.0)).to_bits(), 0x3fb5555555555554);
    assert_eq!(reported(&coded::<f32>(Sqrtm, hilbert, 0.0)).to_bits(), 0x3fb5555580000000);
}

/// Calls that factor nothing, or whose factorings are easily followed.
fn are_plain<T: Width>() {
    let of = |function, a, p| reported(&coded::<T>(function, a, p));
    let (identity, diagonal) = ([1.0, 0.0, 0.0, 1.0], [-2.0, 0.0, 0.0, 3.0]);
    for function in [Cosm, Sinm] {
        assert_eq!(of(function, diagonal, 0.0), f64::INFINITY);
    }
    for (p, wanted) in [(0.0, f64::INFINITY), (1e-15, f64::INFINITY), (5.0, f64::INFINITY), (-1.0, 2.0), (-7.0, 2.0)] {
        assert_eq!(of(Powm, diagonal, p), wanted, "{p}");
    }
    // No root is taken of what is near the identity; the denominator of the zero matrix is the identity.
    assert_eq!(of(Logm, identity, 0.0), f64::INFINITY);
    assert_eq!(of(FrechetLogm, identity, 0.0), f64::INFINITY);
    assert_eq!(of(Powm, identity, 0.5), 1.0);
    assert_eq!(of(Expm, [0.0; 4], 0.0), 1.0);
    // Roots of order 1 factor nothing, the exponential of a block of order 2 does.
    let single = |function| reported(&Call::coded(function, 1, &[T::of(4.0)], &[T::one()], T::zero()));
    assert_eq!([Sqrtm, FrechetSqrtm, FrechetSqrtmSylvester].map(single), [f64::INFINITY; 3]);
    assert!([FrechetExpm, CondExpm].map(single).iter().all(|x| *x < 1.0));
    // Refused, after the first pass factored z.
    assert!(matches!(answer(&coded::<T>(Sqrtm, [0.0; 4], 0.0)), Outcome::Refused(Refusal(13, 0, 0))));
    assert_eq!(of(Sqrtm, [0.0; 4], 0.0), f64::INFINITY);
}

#[test]
fn calls_that_are_easily_followed() {
    are_plain::<f64>();
    are_plain::<f32>();
}

/// Steps and settling of f64 calls and of f32 ones, of matrices of order 2 with the direction [[1, 2], [3, 4]] and an exponent.
const ITERATED: [(Function, [f64; 4], f64, (usize, bool), (usize, bool)); 24] = [
    (Sqrtm, [3.0, 0.0, 2.0, 4.0], 0.0, (6, true), (5, true)),
    (Sqrtm, [0.5, 1.0 / 3.0, 1.0 / 3.0, 0.25], 0.0, (8, true), (7, true)),
    (Sqrtm, [4.0, 0.0, 0.0, 4.0], 0.0, (6, true), (5, true)),
    (Sqrtm, [1.0, 0.0, 0.0, 1.0], 0.0, (1, true), (1, true)),
    (Sqrtm, [-3.0, 0.0, 0.0, -2.5], 0.0, (100, false), (100, false)),
    (FrechetSqrtm, [0.5, 1.0 / 3.0, 1.0 / 3.0, 0.25], 0.0, (8, true), (7, true)),
    (FrechetSqrtmSylvester, [3.0, 0.0, 2.0, 4.0], 0.0, (6, true), (5, true)),
    (FrechetSqrtmSylvester, [-3.0, 0.0, 0.0, -2.5], 0.0, (100, false), (100, false)),
    (Logm, [3.0, 0.0, 2.0, 4.0], 0.0, (33, true), (20, true)),
    (Logm, [1.0, 0.0, 0.0, 1.0], 0.0, (1, true), (1, true)),
    (Logm, [-3.0, 0.0, 0.0, -2.5], 0.0, (130, false), (117, false)),
    (Logm, [0.0; 4], 0.0, (67, true), (30, true)),
    (FrechetLogm, [3.0, 0.0, 2.0, 4.0], 0.0, (66, true), (40, true)),
    (FrechetLogm, [1.0, 0.0, 0.0, 1.0], 0.0, (4, true), (4, true)),
    (Powm, [3.0, 0.0, 2.0, 4.0], 0.5, (33, true), (20, true)),
    (Powm, [-3.0, 0.0, 0.0, -2.5], 0.5, (130, false), (117, false)),
    (Powm, [3.0, 0.0, 2.0, 4.0], 3.0, (0, true), (0, true)),
    (Powm, [3.0, 0.0, 2.0, 4.0], 0.0, (0, true), (0, true)),
    (Powm, [3.0, 0.0, 2.0, 4.0], -7.0, (0, true), (0, true)),
    (Expm, [3.0, 0.0, 2.0, 4.0], 0.0, (0, true), (0, true)),
    (Cosm, [3.0, 0.0, 2.0, 4.0], 0.0, (0, true), (0, true)),
    (Sinm, [3.0, 0.0, 2.0, 4.0], 0.0, (0, true), (0, true)),
    (FrechetExpm, [3.0, 0.0, 2.0, 4.0], 0.0, (0, true), (0, true)),
    (CondExpm, [3.0, 0.0, 2.0, 4.0], 0.0, (0, true), (0, true)),
];

#[test]
fn functions_report_their_steps() {
    for (function, a, p, wide, narrow) in ITERATED {
        assert_eq!(iterated(&coded::<f64>(function, a, p)), wide, "{} {a:?} {p}", function.name());
        assert_eq!(iterated(&coded::<f32>(function, a, p)), narrow, "{} {a:?} {p}", function.name());
    }
}

/// Calls without iteration, and refused ones.
fn have_no_steps<T: Width>() {
    for a in [[3.0, 0.0, 2.0, 4.0], [f64::NAN; 4]] {
        assert_eq!(iterated(&factoring::<T>(2, &a)), (0, true));
    }
    let single = |function, x: f64| iterated(&Call::coded(function, 1, &[T::of(x)], &[T::one()], T::zero()));
    for function in [Sqrtm, FrechetSqrtm, FrechetSqrtmSylvester, FrechetExpm, CondExpm] {
        assert_eq!(single(function, 4.0), (0, true));
    }
    // Refused before a step, at the first and after the first; and where a logarithm's exponential is refused.
    for function in [Sqrtm, FrechetSqrtm, FrechetSqrtmSylvester, Logm, Expm] {
        assert_eq!(single(function, -1.0), (0, false));
    }
    assert_eq!(iterated(&factoring::<T>(2, &[0.0; 4])), (0, false));
    assert_eq!(iterated(&coded::<T>(Sqrtm, [0.0; 4], 0.0)), (0, false));
    assert_eq!(iterated(&coded::<T>(Powm, [0.0; 4], -1.0)), (0, false));
    assert_eq!(iterated(&coded::<T>(Powm, [1.0, 1e25, 0.0, 1.0], 0.5)), (0, false));
}

#[test]
fn calls_without_iteration_and_refused_ones() {
    have_no_steps::<f64>();
    have_no_steps::<f32>();
}

/// What the calls that are written out for their steps report, in order; 0 and no where one is refused.
fn are_written<T: Width>(function: Function, wanted: &[(usize, bool)]) {
    let calls = given::<T>(function);
    // One more follows them, for the smallest pivot.
    let last = calls.len() - usize::from(function.derives_root());
    let found: Vec<(usize, bool)> = calls[last - wanted.len()..last].iter().map(iterated).collect();
    assert_eq!(found, wanted, "{} {}", T::NAME, function.name());
}

#[test]
fn written_calls_report_their_steps() {
    are_written::<f64>(Sqrtm, &[(100, false), (100, true), (8, true)]);
    are_written::<f32>(Sqrtm, &[(100, false), (100, true), (7, true)]);
    for function in [FrechetSqrtm, FrechetSqrtmSylvester] {
        are_written::<f64>(function, &[(100, false), (0, false), (8, true)]);
        are_written::<f32>(function, &[(100, false), (0, false), (7, true)]);
    }
    let (infinite, shears) = ((259, false), [(201, true), (201, false)]);
    are_written::<f64>(Logm, &[(274, false), infinite, shears[0], shears[1], (187, true), (33, true), (1, true)]);
    are_written::<f32>(Logm, &[(196, true), infinite, shears[0], shears[1], (156, true), (20, true), (1, true)]);
    are_written::<f64>(FrechetLogm, &[(533, false), (402, true), (402, false), (402, false), (402, false)]);
    are_written::<f32>(FrechetLogm, &[(455, false), (402, true), (402, false), (402, false), (402, false)]);
    are_written::<f64>(Powm, &[(274, false), (201, true), (201, false)]);
    are_written::<f32>(Powm, &[(196, true), (201, true), (201, false)]);
}

/// The iterations of one part.
fn of_part(all: &[Iteration], part: Part) -> Vec<Iteration> {
    all.iter().copied().filter(|x| x.part == part).collect()
}

/// Why logarithms that are written out did not settle: passes that ran out, or a norm that is above 0.1 after 100 roots, and nothing else.
fn are_unsettled_by_one_part<T: Width>() {
    let restless = run_of(&coded::<T>(Logm, [-3.0, 0.0, 0.0, -2.5], 0.0)).unwrap().iterations;
    let ran_out: Vec<&Iteration> = restless.iter().filter(|x| !x.settled).collect();
    assert_eq!(ran_out, [&Iteration { part: Part::Newton, steps: 100, settled: false }]);
    let shear = |k: i32| coded::<T>(Logm, [1.0, 2f64.powi(k), 0.0, 1.0], 0.0);
    for (k, is_near) in [(96, true), (97, false)] {
        let all = run_of(&shear(k)).unwrap().iterations;
        assert_eq!(of_part(&all, Part::Newton), [Iteration { part: Part::Newton, steps: 2, settled: true }; 100]);
        assert_eq!(of_part(&all, Part::Rooting), [Iteration { part: Part::Rooting, steps: 0, settled: is_near }]);
        assert_eq!(of_part(&all, Part::Series), [Iteration { part: Part::Series, steps: 1, settled: true }]);
    }
    // 2^95 takes one root less.
    assert_eq!(iterated(&shear(95)), (199, true));
}

#[test]
fn logarithms_are_unsettled_by_one_part() {
    are_unsettled_by_one_part::<f64>();
    are_unsettled_by_one_part::<f32>();
}

/// Of frechet_logm's shears both logarithms settle, neither, the first alone, and the second alone.
fn of_two_logarithms<T: Width>() {
    let calls = given::<T>(FrechetLogm);
    // Both logarithms take as many roots.
    let halves = |call: &Call<T>| {
        let all = run_of(call).unwrap().iterations;
        let (first, second) = all.split_at(all.len() / 2);
        [settled(first), settled(second)]
    };
    let found: Vec<[bool; 2]> = calls[calls.len() - 4..].iter().map(halves).collect();
    assert_eq!(found, [[true, true], [false, false], [true, false], [false, true]]);
}

#[test]
fn both_logarithms_must_settle() {
    of_two_logarithms::<f64>();
    of_two_logarithms::<f32>();
}

/// A pass of Newton's iteration factors once, and one of Denman and Beavers' twice; the exponential and the system factor once more. Counts of random
/// calls that are done, that settle, and that do not.
fn are_counted_by_factorings<T: Width>(function: Function) -> [usize; 3] {
    let mut random = Random::new(31);
    let calls = (0..400).map(|_| case::<T>(function, &mut random));
    let runs: Vec<Run<T>> = calls.filter(|c| c.rows > 1).filter_map(|c| run_of(&c)).collect();
    for run in runs.iter().filter(|run| !run.iterations.is_empty()) {
        let [root, newton] = [Part::Root, Part::Newton].map(|part| steps(&of_part(&run.iterations, part)));
        let another = usize::from(function.derives_root() || function == Powm);
        assert_eq!(run.factorings.len(), 2 * root + newton + another);
        assert!(
            run.iterations.iter().all(|x| x.steps <= 100 && (x.settled || x.steps != 0 || x.part == Part::Rooting))
        );
    }
    let count = runs.iter().filter(|run| settled(&run.iterations)).count();
    [runs.len(), count, runs.len() - count]
}

#[test]
fn steps_are_counted_by_factorings() {
    for function in [Sqrtm, Logm, FrechetLogm, FrechetSqrtm, FrechetSqrtmSylvester, Powm] {
        for counts in [are_counted_by_factorings::<f64>(function), are_counted_by_factorings::<f32>(function)] {
            assert!(counts.iter().all(|count| *count > 10), "{} {counts:?}", function.name());
        }
    }
}

/// A whole report: the smallest pivot, the steps, and whether they settled.
type Report = (f64, usize, bool);

fn whole_report<T: Width>(call: &Call<T>) -> Report {
    let (steps, settled) = iterated(call);
    (reported(call), steps, settled)
}

/// The report of two parts of a call.
fn joined(x: Report, y: Report) -> Report {
    (x.0.min(y.0), x.1 + y.1, x.2 && y.2)
}

/// What a call reports by other calls that make its factorings and its steps; none where it is not put together from such.
fn by_parts<T: Width>(c: &Call<T>) -> Option<Report> {
    let (n, a, e, p) = (c.rows, &c.matrix[..], &c.companion[..], c.exponent);
    let logarithm = |a: &[T]| whole_report(&Call::coded(Logm, n, a, &[], T::zero()));
    let added = |factor: T| a.iter().zip(e).map(|(x, y)| *x + factor * *y).collect::<Vec<T>>();
    match c.function {
        CondExpm => Some(whole_report(&Call::coded(FrechetExpm, n, a, &even_direction(n), T::zero()))),
        FrechetExpm if n <= 4 => Some(whole_report(&Call::coded(Expm, 2 * n, &block(n, a, e), &[], T::zero()))),
        FrechetLogm => Some(joined(logarithm(a), logarithm(&added(T::power(-(T::FRACTION as i32)).sqrt())))),
        Powm if whole(p).is_some_and(|p| p < 0) => Some(whole_report(&factoring_of(n, a))),
        Powm if whole(p).is_none() => {
            let log = oracle::logm(n, n, a).ok()?;
            let argument: Vec<T> = log.iter().map(|x| p * *x).collect();
            let exponential = Call::coded(Expm, n, &argument, &[], T::zero());
            argument.iter().all(|x| x.is_finite()).then(|| joined(logarithm(a), whole_report(&exponential)))
        }
        FrechetSqrtm | FrechetSqrtmSylvester if n > 1 => {
            let root = oracle::sqrtm(n, n, a).ok().filter(|root| root.iter().all(|x| x.is_finite()))?;
            let second = if c.function == FrechetSqrtm { root.clone() } else { transposed(n, &root) };
            let system = factoring_of(n * n, &oracle::kron_sum(n, n, &second, n, n, &root));
            Some(joined(whole_report(&Call::coded(Sqrtm, n, a, &[], T::zero())), whole_report(&system)))
        }
        _ => None,
    }
}

/// How many of 200 random calls of the function are put together from others.
fn are_put_together<T: Width>(function: Function) -> usize {
    let mut random = Random::new(23);
    let calls = (0..200).map(|_| case::<T>(function, &mut random));
    let done = calls.filter(|c| matches!(answer(c), Outcome::Done(done) if !done.near));
    let parts: Vec<(Report, Report)> =
        done.filter_map(|c| by_parts(&c).map(|parts| (whole_report(&c), parts))).collect();
    assert!(parts.iter().all(|(whole, parts)| whole == parts), "{}: {parts:?}", function.name());
    parts.len()
}

#[test]
fn reports_are_put_together() {
    for function in [CondExpm, FrechetExpm, FrechetLogm, FrechetSqrtm, FrechetSqrtmSylvester, Powm] {
        let counts = [are_put_together::<f64>(function), are_put_together::<f32>(function)];
        assert!(counts.iter().all(|count| *count > 40), "{} {counts:?}", function.name());
    }
}

/// Whether the last factoring of a call that is done, the system of a root's derivative, has the smallest pivot.
fn is_last<T: Width>(call: &Call<T>) -> bool {
    let all = run_of(call).map_or(Vec::new(), |run| run.factorings);
    all.split_last().is_some_and(|(last, others)| others.iter().all(|x| *x > *last))
}

/// The system of order n × n has the smallest pivot in one written call at least, and in one of twelve random ones of orders from 2 on.
fn system_is_smallest<T: Width>(function: Function) {
    assert!(given::<T>(function).iter().rev().take(1).all(is_last));
    let mut random = Random::new(29);
    let calls: Vec<Call<T>> = (0..600).map(|_| case::<T>(function, &mut random)).filter(|c| c.rows > 1).collect();
    let count = calls.iter().filter(|c| is_last(c)).count();
    assert!(count * 12 > calls.len(), "{count} of {}", calls.len());
}

#[test]
fn the_sylvester_system_has_the_smallest_pivot() {
    for function in [FrechetSqrtm, FrechetSqrtmSylvester] {
        system_is_smallest::<f64>(function);
        system_is_smallest::<f32>(function);
    }
}

/// A run that is not the source's ends the program: another last bit, an output that was refused, and a refusal that was none.
#[test]
fn a_run_that_differs_ends_the_program() {
    let ends = |call: &Call<f32>, given: Option<[Vec<f32>; 2]>| {
        std::panic::catch_unwind(|| repeated(call, given.as_ref()).factorings).is_err()
    };
    for (function, _) in FUNCTIONS.iter().filter(|(function, _)| function.coded() && function.factors()) {
        let call = coded::<f32>(*function, [3.0, 0.0, 2.0, 4.0], -7.0);
        let Outcome::Done(done) = answer(&call) else { panic!("{call:?}") };
        let mut wrong = done.outputs.clone();
        let last = wrong.iter_mut().flatten().last().unwrap();
        *last = f32::of_bits(last.bits() ^ 1);
        assert!(!ends(&call, Some(done.outputs.clone())) && ends(&call, Some(wrong)) && ends(&call, None));
    }
    let refused = coded::<f32>(Sqrtm, [0.0; 4], 0.0);
    assert!(!ends(&refused, None) && ends(&refused, Some([vec![0.0; 4], vec![]])));
}

//! Document 02's #106: frechet_sqrtm_sylvester beside the source's frechet_sqrtm.

use std::cmp::Ordering;
use vectors::answer::answer;
use vectors::call::{Call, Function, Function::*, Outcome, Refusal, word};
use vectors::cases::case;
use vectors::given::given;
use vectors::norms::frobenius_norm;
use vectors::random::Random;
use vectors::sylvester::{layout, transposed};
use vectors::width::Width;

/// The call, made of another function.
fn as_function<T: Width>(call: &Call<T>, function: Function) -> Call<T> {
    Call { function, ..call.clone() }
}

/// The numbers, every NaN as one value.
fn words<T: Width>(numbers: &[T]) -> Vec<u64> {
    numbers.iter().map(|x| word(*x)).collect()
}

/// The root and the derivative of a call that is done.
fn outputs<T: Width>(call: &Call<T>) -> Option<[Vec<T>; 2]> {
    match answer(call) {
        Outcome::Done(done) => Some(done.outputs),
        _ => None,
    }
}

fn is_symmetric<T: Width>(n: usize, a: &[T]) -> bool {
    words(a) == words(&transposed(n, a))
}

/// Random calls and those that are written out.
fn calls<T: Width>() -> Vec<Call<T>> {
    let mut random = Random::new(17);
    let made: Vec<Call<T>> = (0..1000).map(|_| case(FrechetSqrtmSylvester, &mut random)).collect();
    [given(FrechetSqrtmSylvester), made].concat()
}

/// The system of S X + X S = E, written from its definition: entry (r, c) of block (p, q) of a root S.
fn entry<T: Width>(n: usize, s: &[T], (p, r): (usize, usize), (q, c): (usize, usize)) -> T {
    let first = if p == q { T::zero() + s[r * n + c] } else { T::zero() };
    if r == c { first + s[q * n + p] } else { first }
}

fn is_laid_out<T: Width>() {
    let mut random = Random::new(2);
    for n in 1..=8 {
        let s: Vec<T> = (0..n * n).map(|_| T::of_bits(random.bits() >> (64 - T::BITS))).collect();
        let at = |k: usize| (k / n, k % n);
        let order = n * n;
        let wanted: Vec<T> = (0..order * order).map(|k| entry(n, &s, at(k / order), at(k % order))).collect();
        assert_eq!(words(&layout(n, &s, &transposed(n, &s))), words(&wanted), "{n}");
    }
}

#[test]
fn the_system_is_laid_out_as_defined() {
    is_laid_out::<f64>();
    is_laid_out::<f32>();
}

/// S = [[1, 2], [3, 4]] in full, with a -0 that is added to +0.
#[test]
fn a_system_in_full() {
    let s = [1.0, 2.0, 3.0, 4.0];
    let wanted = [[2.0, 2.0, 3.0, 0.0], [3.0, 5.0, 0.0, 3.0], [2.0, 0.0, 5.0, 2.0], [0.0, 2.0, 3.0, 8.0]];
    assert_eq!(layout(2, &s, &transposed(2, &s)), wanted.concat());
    assert_eq!(layout(1, &[-0.0f64], &[-0.0]).iter().map(|x| x.to_bits()).collect::<Vec<u64>>(), [0]);
}

/// Whether both functions answer or refuse in the same way, bit for bit, every NaN as one value; and report the same.
fn are_same<T: Width>(call: &Call<T>) -> bool {
    let [x, y] = [call.clone(), as_function(call, FrechetSqrtm)].map(|c| answer(&c));
    let report = |outcome: &Outcome<T>| (outcome.smallest().map(f64::to_bits), outcome.iterated());
    let same = match (&x, &y) {
        (Outcome::Done(x), Outcome::Done(y)) => {
            x.outputs.each_ref().map(|x| words(x)) == y.outputs.each_ref().map(|y| words(y))
        }
        (Outcome::Refused(x), Outcome::Refused(y)) => x == y,
        _ => false,
    };
    same && report(&x) == report(&y)
}

/// Where the root is symmetric bit for bit, at order 1, and where a question or the root refuses, both functions do the same.
fn are_same_where_symmetric<T: Width>() {
    let (mut symmetric, mut single, mut refused, mut others) = (0, 0, 0, 0);
    for call in calls::<T>() {
        let root = outputs(&call).map(|[root, _]| root);
        let without_root = root.is_none() && outputs(&as_function(&call, FrechetSqrtm)).is_none();
        if root.as_ref().is_some_and(|root| is_symmetric(call.rows, root)) || without_root {
            assert!(are_same(&call), "{call:?}");
            symmetric += usize::from(root.is_some() && call.rows > 1);
            single += usize::from(root.is_some() && call.rows == 1);
            refused += usize::from(without_root);
        } else {
            others += usize::from(!are_same(&call));
        }
    }
    assert!(symmetric > 15 && single > 20 && refused > 100 && others > 400, "{symmetric} {single} {refused} {others}");
}

#[test]
fn symmetric_roots_have_one_derivative() {
    are_same_where_symmetric::<f64>();
    are_same_where_symmetric::<f32>();
}

/// At order 1: e / (2 r), and +0 where the root is not above 0.
fn at_order_1<T: Width>() {
    let derivative = |x: f64, e: f64| {
        let call = Call::coded(FrechetSqrtmSylvester, 1, &[T::of(x)], &[T::of(e)], T::zero());
        outputs(&call).map(|[root, derivative]| [root[0].wide(), derivative[0].wide()].map(f64::to_bits))
    };
    assert_eq!(derivative(4.0, 3.0), Some([2.0, 0.75].map(f64::to_bits)));
    assert_eq!(derivative(0.0, -3.0), Some([0.0, 0.0].map(f64::to_bits)));
    assert_eq!(derivative(-0.0, -3.0), Some([-0.0, 0.0].map(f64::to_bits)));
    assert_eq!(derivative(-1.0, 3.0), None);
}

#[test]
fn order_1_is_that_of_frechet_sqrtm() {
    at_order_1::<f64>();
    at_order_1::<f32>();
}

/// The norm of S X + X S - E, beside the norms of S and X: some rounding steps where X solves the equation.
fn residual<T: Width>(n: usize, s: &[T], x: &[T], e: &[T]) -> f64 {
    let term =
        |a: &[T], b: &[T], k: usize| (0..n).map(|l| a[k / n * n + l].wide() * b[l * n + k % n].wide()).sum::<f64>();
    let rest: Vec<f64> = (0..n * n).map(|k| term(s, x, k) + term(x, s, k) - e[k].wide()).collect();
    frobenius_norm(&rest) / (frobenius_norm(s).wide() * frobenius_norm(x).wide())
}

/// A matrix that has a root: the identity, entries from 1/4 to 1/2 over the order above the diagonal, and such entries negated below.
fn nonsymmetric<T: Width>(n: usize, r: &mut Random) -> Vec<T> {
    let mut entry = |i: usize, j: usize| match i.cmp(&j) {
        Ordering::Equal => 1.0,
        Ordering::Less => (1.0 + r.unit()) / (4 * n) as f64,
        Ordering::Greater => -(1.0 + r.unit()) / (4 * n) as f64,
    };
    (0..n * n).map(|k| T::of(entry(k / n, k % n))).collect()
}

/// The X of the new function solves S X + X S = E to within some rounding steps; the X of frechet_sqrtm does not.
fn solves<T: Width>() {
    let mut random = Random::new(41);
    let step = T::power(-(T::FRACTION as i32)).wide();
    for k in 0..200 {
        let n = 2 + k % 7;
        let [a, e] = [(); 2].map(|_| nonsymmetric::<T>(n, &mut random));
        let call = Call::coded(FrechetSqrtmSylvester, n, &a, &e, T::zero());
        let [root, x] = outputs(&call).expect("the matrix has a root");
        let [_, other] = outputs(&as_function(&call, FrechetSqrtm)).expect("the matrix has a root");
        assert!(!is_symmetric(n, &root));
        assert!(residual(n, &root, &x, &e) < 16.0 * step, "{call:?}");
        assert!(residual(n, &root, &other, &e) > 0.01, "{call:?}");
    }
}

#[test]
fn the_derivative_solves_the_equation() {
    solves::<f64>();
    solves::<f32>();
}

/// The derivative is that of the root: the root of A + h E less that of A, over h, is X to some h.
#[test]
fn the_derivative_is_that_of_the_root() {
    let (a, e, h) = ([3.0, 0.0, 2.0, 4.0], [0.5, 0.0, 1.0, 0.25], 1e-6);
    let call = Call::coded(FrechetSqrtmSylvester, 2, &a, &e, 0.0);
    let [root, x] = outputs(&call).unwrap();
    let [_, other] = outputs(&as_function(&call, FrechetSqrtm)).unwrap();
    let moved: Vec<f64> = a.iter().zip(&e).map(|(x, y)| x + h * y).collect();
    let moved = oracle::sqrtm(2, 2, &moved).unwrap();
    let rest = |x: &[f64]| (0..4).map(|k| ((moved[k] - root[k]) / h - x[k]).abs()).fold(0.0, f64::max);
    assert!(rest(&x) < 1e-6 && rest(&other) > 0.01, "{} {}", rest(&x), rest(&other));
}

/// Which of root and system refuses a call with 13; none where it is not refused so.
fn refused_by<T: Width>(call: &Call<T>) -> Option<&'static str> {
    let root = || oracle::sqrtm(call.rows, call.rows, &call.matrix);
    let is_refused = matches!(answer(call), Outcome::Refused(Refusal(13, 0, 0)));
    is_refused.then(|| if root().is_ok() { "system" } else { "root" })
}

/// Calls are refused 13 by the root and by the system, by both systems or by one of the two.
fn are_refused<T: Width>() {
    let all = calls::<T>();
    let count = |reason: &str| all.iter().filter(|c| refused_by(c) == Some(reason)).count();
    assert!(count("root") > 100 && count("system") > 30, "{} {}", count("root"), count("system"));
    let alone = |call: &&Call<T>| refused_by(call).is_some() != refused_by(&as_function(call, FrechetSqrtm)).is_some();
    assert!(all.iter().filter(alone).count() > 30);
    // Nearly half a turn: eigenvalues of the root nearly cancel, and LU refuses both systems.
    let written = given::<T>(FrechetSqrtmSylvester);
    let both = |call: &&Call<T>| {
        [FrechetSqrtm, FrechetSqrtmSylvester].map(|f| refused_by(&as_function(call, f))) == [Some("system"); 2]
    };
    assert!(written.iter().any(|call| both(&call)));
}

#[test]
fn systems_are_refused() {
    are_refused::<f64>();
    are_refused::<f32>();
}

/// What refuses both functions, the new one first, on [[1, 2^k], [0, 1]], or on its transpose.
fn refused_shear<T: Width>(k: i32, is_below: bool) -> [Option<&'static str>; 2] {
    let mut matrix = [T::one(), T::power(k), T::zero(), T::one()];
    if is_below {
        matrix.swap(1, 2);
    }
    let call = Call::coded(FrechetSqrtmSylvester, 2, &matrix, &[T::one(); 4], T::zero());
    [refused_by(&call), refused_by(&as_function(&call, FrechetSqrtm))]
}

/// From these powers of two on LU refuses the new system alone where the entry stands above the diagonal; and where it stands below, frechet_sqrtm's
/// alone, and then the root.
fn shears_are_refused<T: Width>(above: i32, below: i32, root: i32) {
    for k in 0..T::LARGEST {
        let system = |least: i32| (k >= least).then_some("system");
        assert_eq!(refused_shear::<T>(k, false), [system(above), None], "{k}");
        let wanted = if k >= root { [Some("root"); 2] } else { [None, system(below)] };
        assert_eq!(refused_shear::<T>(k, true), wanted, "{k}");
    }
    let written = given::<T>(FrechetSqrtmSylvester);
    for (place, k) in [(1, above - 1), (1, above), (2, (below + root) / 2)] {
        assert!(written.iter().any(|c| c.rows == 2 && c.matrix[place] == T::power(k)), "{place} {k}");
    }
}

#[test]
fn shears_are_refused_by_one_system_alone() {
    shears_are_refused::<f64>(53, 27, 51);
    shears_are_refused::<f32>(24, 13, 22);
}

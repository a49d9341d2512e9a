//! The report of a call: the smallest pivot, which document 02's #103 asks for, and the steps and whether they settled, of #105. The source reports none
//! of them. So its steps are repeated here in its order, every factoring by its own `Lu`, and the outputs must be the source's: then the pivots and the
//! steps are those of the source's run. A difference ends the program.

use crate::call::{Call, Function::*, word};
use crate::norms::{block, even_direction, frobenius_norm, halvings, one_norm};
use crate::sylvester::{layout, transposed};
use crate::width::Width;
use oracle::Lu;

/// The most passes of a root's iteration, the most roots of a logarithm, and the last term of its series.
const PASSES: usize = 100;
const ROOTS: usize = 100;
const TERMS: usize = 60;

/// The order of the Padé approximant.
const PADE: usize = 13;

/// The smaller of two numbers; the first wins only where it is below the second, so that a NaN never does.
fn smaller<T: Width>(x: T, least: T) -> T {
    if x < least { x } else { least }
}

/// The smallest magnitude on the diagonal of a factoring of order n, where the pivots stand: NaNs are skipped, and where no other is left it is plus
/// infinity.
pub fn smallest_pivot<T: Width>(n: usize, factors: &[T]) -> T {
    (0..n).fold(T::infinity(), |least, k| smaller(factors[k * n + k].magnitude(), least))
}

/// The integer that powm takes an exponent for, or none.
pub fn whole<T: Width>(p: T) -> Option<i64> {
    let rounded = p.wide().round();
    ((p.wide() - rounded).abs() < 1e-14).then_some(rounded as i64)
}

/// The machine step.
fn step<T: Width>() -> T {
    T::power(-(T::FRACTION as i32))
}

/// A pass of a root's iteration that moves less stops it.
fn tolerance<T: Width>() -> T {
    step::<T>() * T::of(100.0)
}

/// The matrix with this number on the diagonal, and +0 beside it: where it is infinite, too.
fn diagonal<T: Width>(n: usize, x: T) -> Vec<T> {
    (0..n * n).map(|k| if k / n == k % n { x } else { T::zero() }).collect()
}

fn identity<T: Width>(n: usize) -> Vec<T> {
    diagonal(n, T::one())
}

fn minus_identity<T: Width>(n: usize, a: &[T]) -> Vec<T> {
    a.iter().enumerate().map(|(k, x)| if k / n == k % n { *x - T::one() } else { *x }).collect()
}

/// A number made of each two entries at the same place.
fn entries<T: Width>(a: &[T], b: &[T], make: impl Fn(T, T) -> T) -> Vec<T> {
    a.iter().zip(b).map(|(x, y)| make(*x, *y)).collect()
}

fn multiple<T: Width>(a: &[T], factor: T) -> Vec<T> {
    a.iter().map(|x| *x * factor).collect()
}

/// The sum times one half.
fn mean<T: Width>(a: &[T], b: &[T]) -> Vec<T> {
    entries(a, b, |x, y| (x + y) * T::of(0.5))
}

fn distance<T: Width>(a: &[T], b: &[T]) -> T {
    frobenius_norm(&entries(a, b, |x, y| x - y))
}

fn product<T: Width>(n: usize, a: &[T], b: &[T]) -> Vec<T> {
    let entry = |i: usize, j: usize| (0..n).fold(T::zero(), |sum, l| sum + a[i * n + l] * b[l * n + j]);
    (0..n * n).map(|k| entry(k / n, k % n)).collect()
}

/// The coefficient of the k-th power in the numerator of the Padé approximant.
fn pade_coefficient<T: Width>(k: usize) -> T {
    let factor = |x: usize| T::of(x as f64);
    (1..=k).fold(T::one(), |c, i| c * factor(PADE - i + 1) / factor(i * (2 * PADE - i + 1)))
}

/// The numerator and the denominator of the Padé approximant.
fn pade_parts<T: Width>(n: usize, a: &[T]) -> [Vec<T>; 2] {
    let (mut numerator, mut denominator) = (vec![T::zero(); n * n], vec![T::zero(); n * n]);
    let mut power = identity(n);
    for k in 0..=PADE {
        if k > 0 {
            power = if k == 1 { a.to_vec() } else { product(n, &power, a) };
        }
        let above: T = pade_coefficient(k);
        let below = above * T::of(if k % 2 == 0 { 1.0 } else { -1.0 });
        numerator = entries(&numerator, &power, |sum, x| sum + above * x);
        denominator = entries(&denominator, &power, |sum, x| sum + below * x);
    }
    [numerator, denominator]
}

/// Whether the 1-norm of A - I exceeds 0.1, so that a logarithm takes a root first; a NaN column never wins.
fn is_far<T: Width>(n: usize, a: &[T]) -> bool {
    one_norm(n, &minus_identity(n, a)) > T::of(0.1)
}

/// What an iteration is for.
#[derive(Clone, Copy, Debug, PartialEq, Eq)]
pub enum Part {
    /// Denman and Beavers' passes for a square root.
    Root,
    /// Newton's passes for one root of a logarithm.
    Newton,
    /// All roots of a logarithm: no steps of its own, and settled where they left a matrix that is not far from the identity.
    Rooting,
    /// The terms of a logarithm's series, from term 2 on.
    Series,
}

/// An iteration that ended: its steps, that in which its test stopped it among them, and whether it settled.
#[derive(Clone, Copy, Debug, PartialEq, Eq)]
pub struct Iteration {
    pub part: Part,
    pub steps: usize,
    pub settled: bool,
}

/// A run of the source's steps, with the smallest pivot of each factoring so far that succeeded, and the iterations that ended, both in order. Where LU
/// refuses a matrix that it must not, a step gives none.
#[derive(Default)]
pub struct Run<T> {
    pub factorings: Vec<T>,
    pub iterations: Vec<Iteration>,
}

impl<T: Width> Run<T> {
    fn ended(&mut self, part: Part, steps: usize, settled: bool) {
        self.iterations.push(Iteration { part, steps, settled });
    }

    fn factor(&mut self, n: usize, a: &[T]) -> Option<Lu<T>> {
        let lu = Lu::compute(n, n, a).ok()?;
        self.factorings.push(smallest_pivot(n, &lu.factors()));
        Some(lu)
    }

    /// The X with A X = B.
    fn solve(&mut self, n: usize, a: &[T], b: &[T]) -> Option<Vec<T>> {
        let lu = self.factor(n, a)?;
        Some(lu.solve(n, b.len() / n, b).unwrap_or_else(|e| panic!("{e}")))
    }

    fn inverse(&mut self, n: usize, a: &[T]) -> Option<Vec<T>> {
        self.solve(n, a, &identity(n))
    }

    /// The Padé approximant; the numerator where LU refuses the denominator.
    fn pade(&mut self, n: usize, a: &[T]) -> Vec<T> {
        let [numerator, denominator] = pade_parts(n, a);
        self.solve(n, &denominator, &numerator).unwrap_or(numerator)
    }

    /// The exponential, with document 01's halvings, which are the source's where calls are compared.
    fn exponential(&mut self, n: usize, a: &[T]) -> Vec<T> {
        let s = halvings(one_norm(n, a));
        let approximant = self.pade(n, &multiple(a, T::power(-(s as i32))));
        (0..s).fold(approximant, |x, _| product(n, &x, &x))
    }

    /// The exponential of A and its derivative, two quarters of the exponential of [A E; 0 A].
    fn exponential_derivative(&mut self, n: usize, a: &[T], e: &[T]) -> [Vec<T>; 2] {
        let whole = self.exponential(2 * n, &block(n, a, e));
        let quarter = |first: usize| (0..n * n).map(|k| whole[k / n * 2 * n + first + k % n]).collect();
        [quarter(0), quarter(n)]
    }

    /// The ratio of cond_expm, the derivative's norm and the exponential's.
    fn condition(&mut self, n: usize, a: &[T]) -> Vec<T> {
        let [exponential, derivative] =
            self.exponential_derivative(n, a, &even_direction(n)).map(|x| frobenius_norm(&x));
        let ratio = if exponential > T::zero() { derivative / exponential } else { T::one() };
        vec![ratio, derivative, exponential]
    }

    /// Newton's iteration for a square root.
    fn newton(&mut self, n: usize, a: &[T]) -> Option<Vec<T>> {
        let trace = (0..n).fold(T::zero(), |sum, i| sum + a[i * n + i]);
        let scale = (trace / T::of(n as f64)).sqrt();
        let mut x = diagonal(n, if scale > step() { scale } else { T::one() });
        let (mut passes, mut settled) = (0, false);
        while passes < PASSES && !settled {
            let next = mean(&x, &self.solve(n, &x, a)?);
            settled = distance(&x, &next) < tolerance();
            x = next;
            passes += 1;
        }
        self.ended(Part::Newton, passes, settled);
        Some(x)
    }

    /// The logarithm of I + X by its series.
    fn series(&mut self, n: usize, x: &[T]) -> Vec<T> {
        let mut sum = entries(&vec![T::zero(); n * n], x, |zero, x| zero + x);
        let mut power = x.to_vec();
        let (mut k, mut settled) = (1, false);
        while k < TERMS && !settled {
            k += 1;
            power = product(n, &power, x);
            let coefficient = T::of(if k % 2 == 0 { -1.0 } else { 1.0 }) / T::of(k as f64);
            let term: Vec<T> = power.iter().map(|x| coefficient * *x).collect();
            sum = entries(&sum, &term, |x, y| x + y);
            settled = frobenius_norm(&term) <= step::<T>() * frobenius_norm(&sum);
        }
        self.ended(Part::Series, k - 1, settled);
        sum
    }

    fn logarithm(&mut self, n: usize, a: &[T]) -> Option<Vec<T>> {
        let mut work = a.to_vec();
        let mut roots = 0;
        while roots < ROOTS && is_far(n, &work) {
            work = self.newton(n, &work)?;
            roots += 1;
        }
        self.ended(Part::Rooting, 0, !is_far(n, &work));
        Some(multiple(&self.series(n, &minus_identity(n, &work)), T::power(roots as i32)))
    }

    /// The logarithm of A, and the difference from that of A + h E over h, with the root of the machine step for h.
    fn logarithm_derivative(&mut self, n: usize, a: &[T], e: &[T]) -> Option<[Vec<T>; 2]> {
        let h = step::<T>().sqrt();
        let first = self.logarithm(n, a)?;
        let second = self.logarithm(n, &entries(a, e, |x, y| x + h * y))?;
        let derivative = entries(&second, &first, |x, y| (x - y) / h);
        Some([first, derivative])
    }

    /// Denman and Beavers' iteration for a square root.
    fn square_root(&mut self, n: usize, a: &[T]) -> Option<Vec<T>> {
        let (mut y, mut z) = (a.to_vec(), identity(n));
        let (mut passes, mut settled) = (0, false);
        while passes < PASSES && !settled {
            let inverse_z = self.inverse(n, &z)?;
            let inverse_y = self.inverse(n, &y)?;
            let next = mean(&y, &inverse_z);
            z = mean(&z, &inverse_y);
            settled = distance(&y, &next) < tolerance();
            y = next;
            passes += 1;
        }
        self.ended(Part::Root, passes, settled);
        Some(y)
    }

    /// The root of A and its derivative; `second` gives the root as it stands in the system's second term.
    fn root_derivative(&mut self, n: usize, a: &[T], e: &[T], second: impl Fn(&[T]) -> Vec<T>) -> Option<[Vec<T>; 2]> {
        let root = self.square_root(n, a)?;
        let columns = self.solve(n * n, &layout(n, &root, &second(&root)), &transposed(n, e))?;
        Some([root, transposed(n, &columns)])
    }

    /// The power by a negative integer.
    fn negative_power(&mut self, n: usize, a: &[T], p: i64) -> Option<Vec<T>> {
        let (mut power, mut base) = (identity(n), self.inverse(n, a)?);
        let mut left = p.unsigned_abs();
        while left > 0 {
            if left % 2 == 1 {
                power = product(n, &power, &base);
            }
            base = product(n, &base, &base);
            left /= 2;
        }
        Some(power)
    }

    fn fractional_power(&mut self, n: usize, a: &[T], p: T) -> Option<Vec<T>> {
        let logarithm = self.logarithm(n, a)?;
        let argument: Vec<T> = logarithm.iter().map(|x| p * *x).collect();
        Some(self.exponential(n, &argument))
    }

    /// The outputs of a call that factors.
    fn outputs(&mut self, c: &Call<T>) -> Option<[Vec<T>; 2]> {
        let (n, a, e) = (c.rows, &c.matrix[..], &c.companion[..]);
        let first = match c.function {
            FrechetExpm => return Some(self.exponential_derivative(n, a, e)),
            FrechetLogm => return self.logarithm_derivative(n, a, e),
            FrechetSqrtm => return self.root_derivative(n, a, e, <[T]>::to_vec),
            FrechetSqrtmSylvester => return self.root_derivative(n, a, e, |root| transposed(n, root)),
            Expm => self.exponential(n, a),
            CondExpm => self.condition(n, a),
            Logm => self.logarithm(n, a)?,
            Sqrtm => self.square_root(n, a)?,
            LuCompute => self.factor(n, a)?.factors(),
            Powm => match whole(c.exponent) {
                Some(p) => self.negative_power(n, a, p)?,
                None => self.fractional_power(n, a, c.exponent)?,
            },
            _ => panic!("{} factors nothing", c.function.name()),
        };
        Some([first, Vec::new()])
    }
}

/// Whether the call may factor a matrix.
fn factors<T: Width>(c: &Call<T>) -> bool {
    match c.function {
        Sqrtm | FrechetSqrtm | FrechetSqrtmSylvester => c.rows > 1,
        Powm => whole(c.exponent).is_none_or(|p| p < 0),
        function => function.factors(),
    }
}

/// A call's run; where the call factors nothing it is empty. The source gives the call these outputs, or none where LU refuses a matrix. Ends the program
/// where the repeated steps give anything else, every NaN as one value.
pub fn repeated<T: Width>(c: &Call<T>, given: Option<&[Vec<T>; 2]>) -> Run<T> {
    let mut run = Run::default();
    if factors(c) {
        let words = |x: &[Vec<T>; 2]| x.each_ref().map(|x| x.iter().map(|x| word(*x)).collect::<Vec<u64>>());
        let outputs = run.outputs(c);
        assert_eq!(outputs.as_ref().map(words), given.map(words), "the repeated steps are not the source's: {c:?}");
    }
    run
}

/// The smallest pivot of all these factorings; in f32 it is widened.
pub fn smallest<T: Width>(factorings: &[T]) -> f64 {
    factorings.iter().fold(T::infinity(), |least, x| smaller(*x, least)).wide()
}

/// The steps of all these iterations.
pub fn steps(iterations: &[Iteration]) -> usize {
    iterations.iter().map(|x| x.steps).sum()
}

/// Whether all these iterations settled; where there is none they did.
pub fn settled(iterations: &[Iteration]) -> bool {
    iterations.iter().all(|x| x.settled)
}

#[cfg(test)]
mod tests {
    use super::*;

    /// diag(x, 0), where the denominator is as near to 0 as LU refuses. No call gets there: its halvings keep the norm to 1.
    fn refused_denominator<T: Width>() -> Vec<T> {
        let diagonal = |x: T| vec![x, T::zero(), T::zero(), T::zero()];
        let below = |x: T| pade_parts(2, &diagonal(x))[1][0];
        let (mut low, mut high) = (T::one(), T::of(64.0));
        for _ in 0..T::FRACTION + 1 {
            let middle = (low + high) * T::of(0.5);
            if below(middle) > T::zero() { low = middle } else { high = middle }
        }
        let mut x = low;
        while Lu::compute(2, 2, &pade_parts(2, &diagonal(x))[1]).is_ok() {
            x = x.next_up();
        }
        diagonal(x)
    }

    /// Where the numerator stands in for the approximant, nothing is added.
    fn stands_in<T: Width>() {
        let a = refused_denominator::<T>();
        let mut run = Run::default();
        let approximant = run.pade(2, &a);
        assert_eq!((approximant, run.factorings.len()), (pade_parts(2, &a)[0].clone(), 0));
        assert_eq!(smallest(&run.factorings), f64::INFINITY);
    }

    #[test]
    fn a_numerator_that_stands_in_adds_nothing() {
        stands_in::<f64>();
        stands_in::<f32>();
    }
}

//! Calls to try: matrices of several kinds, and now and then a call with something wrong.

use crate::call::{Call, Function, Function::*};
use crate::norms::MOST_HALVINGS;
use crate::questions::asked;
use crate::random::Random;
use crate::width::Width;
use oracle::Lu;

#[derive(Clone, Copy)]
pub enum Kind {
    SmallIntegers,
    Normal,
    Scaled,
    PowersOfTwo,
    Symmetric,
    Upper,
    Lower,
    Zeros,
    Singular,
    AtTolerance,
    Ties,
    Huge,
    Tiny,
    AnyFinite,
    NearIdentity,
    Definite,
    PositiveUpper,
    Shear,
    Rotation,
    Special,
    AtPower,
    Overflowing,
    Nonfinite,
    AtLimit,
    HalfTurn,
}

use Kind::*;

/// Every kind with finite entries, but for those that are made for functions that halve, and for a root's derivative.
const FINITE: [Kind; 22] = [
    SmallIntegers,
    Normal,
    Scaled,
    PowersOfTwo,
    Symmetric,
    Upper,
    Lower,
    Zeros,
    Singular,
    AtTolerance,
    Ties,
    Huge,
    Tiny,
    AnyFinite,
    NearIdentity,
    Definite,
    PositiveUpper,
    Shear,
    Rotation,
    Special,
    AtPower,
    Overflowing,
];

/// Kinds that have a logarithm and a root.
const ROOTED: [Kind; 4] = [NearIdentity, Definite, PositiveUpper, Shear];

/// Kinds of entries for matrices that need not be square.
const ENTRIES: [Kind; 9] = [SmallIntegers, Normal, Scaled, PowersOfTwo, Zeros, Ties, Huge, Tiny, AnyFinite];

/// The exponent of the largest norm that question 17 passes, 2^64.
const LIMIT: i32 = MOST_HALVINGS as i32;

pub const NOT_FINITE: [f64; 3] = [f64::NAN, f64::INFINITY, f64::NEG_INFINITY];

/// A NaN or an infinity.
fn not_finite<T: Width>(r: &mut Random) -> T {
    T::of(r.pick(&NOT_FINITE))
}

/// Either sign.
fn signed<T: Width>(x: T, r: &mut Random) -> T {
    x * T::of(r.sign())
}

/// A power of two with an exponent in this range.
fn power_within((low, high): (i32, i32), r: &mut Random) -> f64 {
    r.power_of_two(low, high)
}

/// From the largest power of two up to the largest number.
fn overflowing<T: Width>(r: &mut Random) -> T {
    let x = T::of(1.0 + r.unit()) * T::power(T::LARGEST);
    if x.is_finite() { x } else { T::largest() }
}

/// Numbers of one kind, whatever the shape.
fn entries<T: Width>(kind: Kind, count: usize, r: &mut Random) -> Vec<T> {
    let scale = match kind {
        Scaled => r.power_of_two(-30, 30),
        Huge => power_within(T::EDGES.huge, r),
        Tiny => power_within(T::EDGES.tiny[0], r) * power_within(T::EDGES.tiny[1], r),
        Ties => f64::from(r.between(1, 9)),
        AtLimit => r.power_of_two(LIMIT - 6, LIMIT + 2),
        _ => 1.0,
    };
    let mut numbers = Vec::with_capacity(count);
    for _ in 0..count {
        numbers.push(match kind {
            SmallIntegers => T::of(f64::from(r.between(-9, 9))),
            PowersOfTwo => T::of(r.sign() * r.power_of_two(-20, 20)),
            Ties => T::of(r.sign() * scale),
            Zeros if r.once_in(2) => T::of(r.sign() * 0.0),
            AnyFinite => r.finite(),
            Overflowing if r.once_in(2) => {
                let sign = T::of(r.sign());
                sign * overflowing(r)
            }
            Nonfinite if r.once_in(4) => not_finite(r),
            _ => T::of(r.normal() * scale),
        });
    }
    numbers
}

/// A diagonal with this 1-norm.
fn diagonal<T: Width>(n: usize, norm: T, r: &mut Random) -> Vec<T> {
    let mut a = vec![T::zero(); n * n];
    let at = r.below(n);
    for i in 0..n {
        for j in 0..n {
            let inside = if i == at { norm } else { norm * T::of(r.unit()) };
            a[i * n + j] = if i == j { signed(inside, r) } else { T::zero() };
        }
    }
    a
}

/// The identity and one entry above the diagonal: its logarithm is that entry.
pub fn shear<T: Width>(n: usize, entry: T, r: &mut Random) -> Vec<T> {
    let mut a = vec![T::zero(); n * n];
    for i in 0..n {
        a[i * n + i] = T::one();
    }
    if n > 1 {
        let i = r.below(n - 1);
        let j = i + 1 + r.below(n - 1 - i);
        a[i * n + j] = entry;
    }
    a
}

/// The largest norm that question 17 passes or one of its two neighbours, or one from 2^60 to 2^68.
fn norm_at_limit<T: Width>(r: &mut Random) -> T {
    let power = T::power(LIMIT);
    let other = T::of((1.0 + r.unit()) * r.power_of_two(LIMIT - 4, LIMIT + 3));
    r.pick(&[power, power.next_up(), power.next_down(), other, other, other])
}

/// A shear whose square root halves such a norm.
pub fn shear_at_limit<T: Width>(n: usize, r: &mut Random) -> Vec<T> {
    let entry = T::of(2.0 * r.sign()) * norm_at_limit(r);
    shear(n, entry, r)
}

/// Rows in another order.
fn shuffle<T>(n: usize, a: &mut [T], r: &mut Random) {
    for i in 1..n {
        let other = r.below(i + 1);
        for j in 0..n {
            a.swap(i * n + j, other * n + j);
        }
    }
}

/// A pivot at, next to or near the largest that is refused, in some column: an upper triangle with rows in another order.
fn at_tolerance<T: Width>(n: usize, r: &mut Random) -> Vec<T> {
    let mut a = square(Upper, n, r);
    for i in 0..n {
        a[i * n + i] = T::of(r.sign() * f64::from(r.between(1, 4)));
    }
    let t = T::power(-(T::FRACTION as i32)) * T::of(n as f64);
    let k = r.below(n);
    let sign = T::of(r.sign());
    a[k * n + k] = sign * r.pick(&[t, t.next_up(), t.next_down(), T::of(2.0) * t, T::of(0.5) * t]);
    shuffle(n, &mut a, r);
    a
}

/// Pairs of rows turn by nearly half a turn and are scaled; a last row alone is 1. Of a root's derivative the system of order n × n then has the smallest
/// pivot, which it seldom has otherwise.
fn half_turn<T: Width>(n: usize, r: &mut Random) -> Vec<T> {
    let mut a = vec![T::zero(); n * n];
    let size = T::of(r.pick(&[0.25, 0.5, 3.0, 4.0]));
    let rest = size * T::of(r.sign() * r.power_of_two(-9, -5));
    for i in 0..n {
        let pair = i ^ 1;
        if pair >= n {
            a[i * n + i] = T::one();
        } else {
            a[i * n + i] = -size;
            a[i * n + pair] = if i < pair { -rest } else { rest };
        }
    }
    a
}

pub fn square<T: Width>(kind: Kind, n: usize, r: &mut Random) -> Vec<T> {
    if n == 0 {
        return Vec::new();
    }
    let (zero, one) = (T::zero(), T::one());
    let mut a: Vec<T> = entries(kind, n * n, r);
    match kind {
        Symmetric => {
            for i in 0..n {
                for j in 0..i {
                    a[i * n + j] = a[j * n + i];
                }
            }
        }
        Upper | PositiveUpper => {
            for i in 0..n {
                for j in 0..i {
                    a[i * n + j] = zero;
                }
                if let PositiveUpper = kind {
                    a[i * n + i] = T::of(0.1 + 4.0 * r.unit());
                }
            }
        }
        Lower => {
            for i in 0..n {
                for j in i + 1..n {
                    a[i * n + j] = zero;
                }
            }
        }
        Singular => {
            // One row is a multiple of another, or 0.
            let (from, to) = (r.below(n), r.below(n));
            let factor = if from == to { 0.0 } else { r.pick(&[1.0, -1.0, 2.0, 0.5, 3.0]) };
            for j in 0..n {
                a[to * n + j] = T::of(factor) * a[from * n + j];
            }
        }
        AtTolerance => a = at_tolerance(n, r),
        NearIdentity => {
            let size = T::of(r.pick(&[0.3, 0.03, 0.001, T::EDGES.small]));
            for i in 0..n {
                for j in 0..n {
                    a[i * n + j] = size * a[i * n + j] + if i == j { one } else { zero };
                }
            }
        }
        Definite => {
            // Half the sum of the matrix times its transpose and a multiple of the identity, times a power of two.
            let scale = T::of(r.power_of_two(-6, 6));
            let b = a.clone();
            for i in 0..n {
                for j in 0..n {
                    let mut sum = if i == j { T::of(0.5) } else { zero };
                    for k in 0..n {
                        sum = sum + b[i * n + k] * b[j * n + k];
                    }
                    a[i * n + j] = sum * scale;
                }
            }
        }
        Shear => {
            // With an entry up to the largest number: the logarithm may overflow times p.
            let power = if r.once_in(4) { power_within(T::EDGES.steep, r) } else { r.power_of_two(-20, 60) };
            let entry = T::of(r.sign() * power * r.pick(&[1.0, 1.0, 1.5, 1.25]));
            a = shear(n, entry, r);
        }
        Rotation => {
            // Pairs of rows turn by an angle; a last row alone is 1.
            a = vec![zero; n * n];
            let angle = T::of(20.0 * r.unit() - 10.0);
            for i in 0..n {
                let pair = i ^ 1;
                if pair >= n {
                    a[i * n + i] = one;
                } else {
                    a[i * n + pair] = if i < pair { -angle } else { angle };
                }
            }
        }
        HalfTurn => a = half_turn(n, r),
        AtPower => {
            // A diagonal whose 1-norm is a power of two or next to it, or that less 1, as cosine and sine add 1.
            let power = T::of(if r.once_in(4) { r.power_of_two(0, T::LARGEST) } else { r.power_of_two(0, 40) });
            let mut choices = vec![power, power.next_up(), power.next_down(), power - one];
            choices.extend(T::EDGES.beyond.iter().map(|factor| power * T::of(*factor)));
            let norm = r.pick(&choices);
            a = diagonal(n, norm, r);
        }
        AtLimit if r.once_in(2) => {
            let norm = norm_at_limit(r);
            a = diagonal(n, norm, r);
        }
        Special => {
            // A multiple of the identity, rows in another order or not, or of the matrix of ones above the diagonal.
            let x = T::of(r.pick(&[0.0, -0.0, 1.0, -1.0, 4.0, 0.25, T::EDGES.least, 3.0]));
            let above = r.once_in(3);
            for i in 0..n {
                for j in 0..n {
                    a[i * n + j] = if (above && i < j) || (!above && i == j) { x } else { zero };
                }
            }
            if r.once_in(3) {
                shuffle(n, &mut a, r);
            }
        }
        _ => {}
    }
    a
}

/// A matrix for a function.
pub fn matrix_for<T: Width>(function: Function, n: usize, r: &mut Random) -> Vec<T> {
    let kind = match function {
        Expm | Cosm | Sinm | FrechetExpm | CondExpm if r.once_in(16) => AtLimit,
        FrechetSqrtm | FrechetSqrtmSylvester if r.once_in(8) => HalfTurn,
        Logm | Sqrtm | Powm | FrechetLogm | FrechetSqrtm | FrechetSqrtmSylvester if r.once_in(2) => r.pick(&ROOTED),
        Expm | Cosm | Sinm | FrechetExpm | CondExpm if r.once_in(2) => r.pick(&[Normal, Scaled, Symmetric]),
        _ if !function.coded() && r.once_in(6) => Nonfinite,
        _ => r.pick(&FINITE),
    };
    square(kind, n, r)
}

pub fn direction<T: Width>(n: usize, r: &mut Random) -> Vec<T> {
    let kind = if r.once_in(2) { Normal } else { r.pick(&FINITE) };
    square(kind, n, r)
}

fn free_entries<T: Width>(count: usize, r: &mut Random) -> Vec<T> {
    let kind = if r.once_in(6) { Nonfinite } else { r.pick(&ENTRIES) };
    entries(kind, count, r)
}

pub fn exponent<T: Width>(r: &mut Random) -> T {
    let whole = 2f64.powi(T::FRACTION as i32);
    let power = T::of(2f64.powi(63));
    match r.below(8) {
        0 => T::of(f64::from(r.between(-6, 12))),
        1 => T::of(f64::from(r.between(-400, 400))),
        2 => T::of(r.sign() * r.power_of_two(0, 70)),
        3 => T::of(r.pick(&[0.5, -0.5, 2.5, -2.5, 1.0 / 3.0, 0.25, 0.1, 1.5])),
        4 => T::of(r.normal()),
        // At the edges of the integer test, of rounding and of the cast.
        5 => T::of(r.pick(T::EDGES.exponents)),
        6 => r.pick(&[
            T::of(0.5).next_down(),
            T::of(-0.5),
            T::of(1.5).next_up(),
            T::of(whole - 0.5),
            T::of(whole + 1.0),
            T::of(2.0 * whole + 2.0),
            power,
            -power,
            power.next_down(),
            T::largest(),
        ]),
        _ => T::of(r.normal() * r.power_of_two(-8, 8)),
    }
}

/// Orders for LU: mostly to 16, sometimes 64.
fn lu_order(r: &mut Random) -> usize {
    if r.once_in(50) { 64 } else { r.below(17) }
}

/// Sizes of two factors: mostly small, sometimes with a product up to 64.
fn factor_sizes(r: &mut Random) -> (usize, usize) {
    if r.once_in(12) {
        let x = 1 + r.below(16);
        (x, 1 + r.below(64 / x))
    } else {
        (r.below(5), r.below(5))
    }
}

/// Lends outputs and a workspace that fit.
fn lend<T: Width>(c: &mut Call<T>, r: &mut Random) {
    for i in 0..c.function.output_count() {
        c.outputs[i] = c.output_length();
    }
    if c.function.has_workspace() {
        c.room = if r.once_in(8) { 8192 + r.below(100) } else { 8192 };
    }
}

/// A call of this order with nothing wrong with its shape.
fn sound<T: Width>(function: Function, n: usize, r: &mut Random) -> Call<T> {
    let mut c = Call::new(function);
    (c.rows, c.columns) = (n, n);
    match function {
        LuCompute => {
            c.matrix = matrix_for(function, n, r);
            c.pivots = vec![0; n];
        }
        LuSolve | LuDeterminant => {
            let lu = loop {
                c.factored = matrix_for(function, n, r);
                if let Ok(lu) = Lu::compute(n, n, &c.factored) {
                    break lu;
                }
            };
            c.matrix = lu.factors();
            c.pivots = lu.pivots().to_vec();
            if function == LuSolve {
                c.companion_rows = n;
                c.companion_columns = if r.once_in(50) { 64 } else { r.below(5) };
                c.companion = free_entries(n * c.companion_columns, r);
            }
        }
        Kron => {
            (c.rows, c.companion_rows) = factor_sizes(r);
            (c.columns, c.companion_columns) = factor_sizes(r);
            c.matrix = free_entries(c.rows * c.columns, r);
            c.companion = free_entries(c.companion_rows * c.companion_columns, r);
        }
        KronSum => {
            let (x, y) = factor_sizes(r);
            (c.rows, c.columns, c.companion_rows, c.companion_columns) = (x, x, y, y);
            c.matrix = matrix_for(function, x, r);
            c.companion = matrix_for(function, y, r);
        }
        _ => {
            c.matrix = matrix_for(function, n, r);
            if function.directed() {
                (c.companion_rows, c.companion_columns) = (n, n);
                c.companion = direction(n, r);
            }
            if function == FrechetExpm && r.once_in(16) {
                c.companion = square(AtLimit, n, r);
            }
            if function == Powm {
                c.exponent = exponent(r);
            }
            if function == Powm && r.once_in(16) {
                // The norm that is halved is not finite, or lies at question 17's limit.
                (c.matrix, c.exponent) = match r.below(4) {
                    0 => (shear(n, T::largest(), r), T::of(2.5)),
                    _ => (shear_at_limit(n, r), T::of(0.5)),
                };
            }
        }
    }
    lend(&mut c, r);
    c
}

/// Lengths that belong to the call's shape.
fn fit<T: Width>(c: &mut Call<T>, r: &mut Random) {
    c.matrix = free_entries(c.rows * c.columns, r);
    if c.function.has_companion() {
        c.companion = free_entries(c.companion_rows * c.companion_columns, r);
    }
    if c.function.lu() {
        c.pivots = (0..c.rows).collect();
    }
    lend(c, r);
}

/// One more or one less.
fn miss(count: usize, r: &mut Random) -> usize {
    if count == 0 || r.once_in(2) { count + 1 } else { count - 1 }
}

/// Above the limit of question 4.
fn exceed<T>(c: &mut Call<T>, r: &mut Random) {
    if c.function.kronecker() {
        match r.below(4) {
            0 => c.rows = 65,
            1 => c.companion_columns = 65,
            2 => (c.rows, c.companion_rows) = (9, 8),
            _ => (c.columns, c.companion_columns) = (5, 13),
        }
        if c.function == KronSum {
            (c.columns, c.companion_rows) = (c.rows, c.companion_columns);
        }
    } else if c.function == LuSolve && r.once_in(2) {
        c.companion_columns = 65;
    } else {
        let n = if c.function.coded() { 9 + r.below(3) } else { 65 };
        (c.rows, c.columns) = (n, n);
        c.companion_rows = n;
        if c.function.directed() {
            c.companion_columns = n;
        }
    }
}

/// Something wrong, where the function has what is spoiled.
fn spoil<T: Width>(c: &mut Call<T>, r: &mut Random) {
    match r.below(11) {
        0 => {
            c.rows = 0;
            c.columns = r.below(4);
            fit(c, r);
        }
        1 => {
            c.columns = miss(c.columns, r);
            fit(c, r);
        }
        2 if c.function.has_companion() => {
            if r.once_in(2) {
                c.companion_rows = miss(c.companion_rows, r);
            } else {
                c.companion_columns = miss(c.companion_columns, r);
            }
            fit(c, r);
        }
        3 => {
            exceed(c, r);
            fit(c, r);
        }
        4 => {
            let wrong = miss(c.matrix.len(), r);
            c.matrix.resize(wrong, T::one());
        }
        5 if c.function.has_companion() => {
            let wrong = miss(c.companion.len(), r);
            c.companion.resize(wrong, T::one());
        }
        6 if c.function.lu() => {
            let wrong = miss(c.pivots.len(), r);
            c.pivots.resize(wrong, 0);
        }
        7 if c.function.output_count() > 0 => {
            let i = r.below(c.function.output_count());
            c.outputs[i] = miss(c.outputs[i], r);
        }
        8 if c.function.has_workspace() => c.room = r.pick(&[0, 1, 4096, 8191]),
        9 if c.function == Powm => c.exponent = not_finite(r),
        9 if !c.pivots.is_empty() => {
            let k = r.below(c.pivots.len());
            c.pivots[k] = if k > 0 && r.once_in(2) { r.below(k) } else { c.rows + r.below(3) };
        }
        _ if c.function.coded() && c.rows <= 8 => {
            let numbers = if c.companion.is_empty() || r.once_in(2) { &mut c.matrix } else { &mut c.companion };
            if !numbers.is_empty() {
                let at = r.below(numbers.len());
                numbers[at] = not_finite(r);
            }
        }
        _ => {}
    }
}

/// A call of order 1, at the edges of question 10.
fn of_order_1<T: Width>(function: Function, r: &mut Random) -> Call<T> {
    let mut c = sound(function, 1, r);
    if r.once_in(2) {
        let (least, [one, two, four]) = (T::of_bits(1), [1.0, 2.0, 4.0].map(T::of));
        c.matrix = vec![r.pick(&[T::zero(), -T::zero(), one, -one, four, least, -least, T::largest(), two])];
    }
    c
}

/// A call to try.
pub fn case<T: Width>(function: Function, r: &mut Random) -> Call<T> {
    if function.coded() && r.once_in(24) {
        return of_order_1(function, r);
    }
    let n = match function {
        _ if function.lu() => lu_order(r),
        Expm | Logm | Powm | Cosm | Sinm | FrechetLogm => 2 + r.below(7),
        _ => 1 + r.below(8),
    };
    let c = sound(function, n, r);
    if !r.once_in(12) {
        return c;
    }
    let mut spoiled = c.clone();
    spoil(&mut spoiled, r);
    if r.once_in(3) {
        spoil(&mut spoiled, r);
    }
    // Factors and pivots that pass must be some matrix's own, so that the source can be asked.
    if matches!(function, LuSolve | LuDeterminant) && asked(&spoiled).is_ok() { c } else { spoiled }
}

//! A call, its outcome, and both as one line of text.

use crate::width::Width;
use std::fmt::Write;

#[derive(Clone, Copy, Debug, PartialEq, Eq)]
pub enum Function {
    Expm,
    Logm,
    Sqrtm,
    Powm,
    Cosm,
    Sinm,
    FrechetExpm,
    FrechetLogm,
    FrechetSqrtm,
    CondExpm,
    FrechetSqrtmSylvester,
    LuCompute,
    LuSolve,
    LuDeterminant,
    Kron,
    KronSum,
}

use Function::*;

/// Those that have a code on a sheet come first, in the order of their codes.
pub const FUNCTIONS: [(Function, &str); 16] = [
    (Expm, "expm"),
    (Logm, "logm"),
    (Sqrtm, "sqrtm"),
    (Powm, "powm"),
    (Cosm, "cosm"),
    (Sinm, "sinm"),
    (FrechetExpm, "frechet_expm"),
    (FrechetLogm, "frechet_logm"),
    (FrechetSqrtm, "frechet_sqrtm"),
    (CondExpm, "cond_expm"),
    (FrechetSqrtmSylvester, "frechet_sqrtm_sylvester"),
    (LuCompute, "lu_compute"),
    (LuSolve, "lu_solve"),
    (LuDeterminant, "lu_determinant"),
    (Kron, "kron"),
    (KronSum, "kron_sum"),
];

/// How many functions have a code.
pub const CODES: usize = 11;

impl Function {
    pub fn name(self) -> &'static str {
        FUNCTIONS[self as usize].1
    }

    pub fn named(name: &str) -> Option<Function> {
        FUNCTIONS.iter().find(|(_, n)| *n == name).map(|(f, _)| *f)
    }

    /// The functions that have a code on a sheet.
    pub fn coded(self) -> bool {
        (self as usize) < CODES
    }

    /// The number that a function's random calls are made from. One that was added has the next number, so that the calls of the others are the same.
    pub fn sequence(self) -> u64 {
        match self {
            FrechetSqrtmSylvester => 15,
            LuCompute | LuSolve | LuDeterminant | Kron | KronSum => self as u64 - 1,
            _ => self as u64,
        }
    }

    pub fn lu(self) -> bool {
        matches!(self, LuCompute | LuSolve | LuDeterminant)
    }

    pub fn kronecker(self) -> bool {
        matches!(self, Kron | KronSum)
    }

    pub fn directed(self) -> bool {
        matches!(self, FrechetExpm | FrechetLogm) || self.derives_root()
    }

    /// The functions that give a square root and its derivative.
    pub fn derives_root(self) -> bool {
        matches!(self, FrechetSqrtm | FrechetSqrtmSylvester)
    }

    /// The functions that halve a matrix, powm where its exponent is a fraction.
    pub fn halves(self) -> bool {
        matches!(self, Expm | Powm | Cosm | Sinm | FrechetExpm | CondExpm)
    }

    /// The functions that factor a matrix: roots and their derivatives from order 2 on, powm where its exponent is a fraction or a negative integer.
    pub fn factors(self) -> bool {
        !matches!(self, Cosm | Sinm | LuSolve | LuDeterminant | Kron | KronSum)
    }

    /// The functions that iterate: roots and their derivatives from order 2 on, powm where its exponent is a fraction.
    pub fn iterates(self) -> bool {
        matches!(self, Logm | Sqrtm | Powm | FrechetLogm) || self.derives_root()
    }

    /// A direction, a right-hand side or a second matrix stands beside the matrix.
    pub fn has_companion(self) -> bool {
        self.directed() || self == LuSolve || self.kronecker()
    }

    pub fn has_workspace(self) -> bool {
        self.coded() || self == LuCompute
    }

    /// The lent outputs; numbers that are returned are none.
    pub fn output_count(self) -> usize {
        match self {
            CondExpm | LuDeterminant => 0,
            _ if self.directed() => 2,
            _ => 1,
        }
    }
}

/// What a call is given. What a function does not have is 0 or empty.
#[derive(Clone, Debug)]
pub struct Call<T = f64> {
    pub function: Function,
    pub rows: usize,
    pub columns: usize,
    pub matrix: Vec<T>,
    pub companion_rows: usize,
    pub companion_columns: usize,
    pub companion: Vec<T>,
    pub exponent: T,
    pub pivots: Vec<usize>,
    /// The lengths of the lent outputs and of the workspace.
    pub outputs: [usize; 2],
    pub room: usize,
    /// The matrix whose factors and pivots solve and determinant are given. It is not written to the line.
    pub factored: Vec<T>,
}

impl<T: Width> Call<T> {
    pub fn new(function: Function) -> Call<T> {
        Call {
            function,
            rows: 0,
            columns: 0,
            matrix: Vec::new(),
            companion_rows: 0,
            companion_columns: 0,
            companion: Vec::new(),
            exponent: T::zero(),
            pivots: Vec::new(),
            outputs: [0, 0],
            room: 0,
            factored: Vec::new(),
        }
    }

    /// A call of a function that has a code, of order n, with outputs and a workspace that fit. The direction is taken where the function has one.
    pub fn coded(function: Function, n: usize, matrix: &[T], direction: &[T], exponent: T) -> Call<T> {
        let mut c = Call::new(function);
        (c.rows, c.columns, c.room) = (n, n, 8192);
        (c.matrix, c.exponent) = (matrix.to_vec(), exponent);
        if function.directed() {
            (c.companion_rows, c.companion_columns) = (n, n);
            c.companion = direction.to_vec();
        }
        for i in 0..function.output_count() {
            c.outputs[i] = n * n;
        }
        c
    }

    /// The length that each lent output must have.
    pub fn output_length(&self) -> usize {
        match self.function {
            LuSolve => self.rows * self.companion_columns,
            Kron | KronSum => self.rows * self.companion_rows * self.columns * self.companion_columns,
            _ => self.rows * self.columns,
        }
    }
}

/// A refusal's number in document 01, or 17 of document 02's #102, and its two details.
#[derive(Clone, Copy, Debug, PartialEq, Eq)]
pub struct Refusal(pub usize, pub usize, pub usize);

#[derive(Clone, Debug)]
pub struct Done<T = f64> {
    pub halvings: usize,
    /// The norm that sets the halvings lies within relative distance 2^-40 (2^-12 in f32) of a power of two. Both counts agree there.
    pub near: bool,
    /// The smallest pivot magnitude of the factorings that succeeded, or plus infinity; in f32 the f32 number, widened.
    pub smallest: f64,
    /// The passes of all root iterations and the terms of all series from term 2 on, and whether all of them settled.
    pub steps: usize,
    pub settled: bool,
    pub outputs: [Vec<T>; 2],
    pub pivots: Vec<usize>,
}

#[derive(Clone, Debug)]
pub enum Outcome<T = f64> {
    Done(Done<T>),
    Refused(Refusal),
    /// The source takes another number of halvings than document 01 defines: a listed difference, not compared.
    Parted,
}

impl<T> Outcome<T> {
    /// The smallest pivot that a call with this outcome reports: plus infinity after a refusal, and none where it is not known.
    pub fn smallest(&self) -> Option<f64> {
        match self {
            Outcome::Done(done) => Some(done.smallest),
            Outcome::Refused(_) => Some(f64::INFINITY),
            Outcome::Parted => None,
        }
    }

    /// The steps that a call with this outcome reports, and whether it settled: 0 and no after a refusal, and none where it is not known.
    pub fn iterated(&self) -> Option<(usize, bool)> {
        match self {
            Outcome::Done(done) => Some((done.steps, done.settled)),
            Outcome::Refused(_) => Some((0, false)),
            Outcome::Parted => None,
        }
    }
}

/// The bits of a number; every NaN is written as one.
pub fn word<T: Width>(x: T) -> u64 {
    // By the bits: the compiler may take a number that is tested by `is_nan` for its own bits.
    let bits = x.bits();
    if bits & !(1 << (T::BITS - 1)) > T::infinity_bits() { T::nan_bits() } else { bits }
}

/// A space and the bits of a number, as 16 digits or as 8.
fn put_number<T: Width>(line: &mut String, x: T) {
    let digits = T::BITS as usize / 4;
    write!(line, " {:0digits$x}", word(x)).unwrap();
}

/// A space and the bits of an f64, as they are: it is a NaN in planted vectors only.
fn put_smallest(line: &mut String, smallest: f64) {
    write!(line, " {:016x}", smallest.to_bits()).unwrap();
}

fn put_numbers<T: Width>(line: &mut String, numbers: &[T]) {
    write!(line, " {:x}", numbers.len()).unwrap();
    for x in numbers {
        put_number(line, *x);
    }
}

fn put_counts(line: &mut String, counts: &[usize]) {
    for x in counts {
        write!(line, " {x:x}").unwrap();
    }
}

fn put_pivots(line: &mut String, pivots: &[usize]) {
    put_counts(line, &[pivots.len()]);
    put_counts(line, pivots);
}

/// One line without its newline, as host/README.md describes it; none for a call that is left out.
pub fn line<T: Width>(call: &Call<T>, outcome: &Outcome<T>) -> Option<String> {
    let mut line = call.function.name().to_string();
    put_counts(&mut line, &[call.rows, call.columns, call.companion_rows, call.companion_columns]);
    put_counts(&mut line, &[call.outputs[0], call.outputs[1], call.room]);
    put_number(&mut line, call.exponent);
    put_numbers(&mut line, &call.matrix);
    put_numbers(&mut line, &call.companion);
    put_pivots(&mut line, &call.pivots);
    match outcome {
        Outcome::Done(done) => {
            line.push_str(if done.near { " | near" } else { " | ok" });
            put_counts(&mut line, &[done.halvings]);
            put_smallest(&mut line, done.smallest);
            put_counts(&mut line, &[done.steps, usize::from(done.settled)]);
            put_numbers(&mut line, &done.outputs[0]);
            put_numbers(&mut line, &done.outputs[1]);
            put_pivots(&mut line, &done.pivots);
        }
        Outcome::Refused(Refusal(number, first, second)) => {
            line.push_str(" | no");
            put_counts(&mut line, &[*number, *first, *second]);
        }
        Outcome::Parted => return None,
    }
    Some(line)
}

//! The port's public calls, as crates/host_entries (f64) and crates/host_entries32 (f32) of the repository export them. Names and signatures stand there
//! and here; nothing compares them.

use crate::lent::Lent;
use std::fmt;
use vectors::call::Call;
use vectors::width::Width;

/// What a call reports: the refusal's number, 0 where it is done; then its halvings and 0, or the refusal's details; the bits of its smallest pivot, an f64
/// in both widths; its steps, and whether they settled.
#[derive(Clone, Copy, PartialEq, Eq)]
pub struct Told {
    pub number: usize,
    pub report: [usize; 2],
    pub smallest: u64,
    pub steps: usize,
    pub settled: bool,
}

impl fmt::Debug for Told {
    fn fmt(&self, f: &mut fmt::Formatter) -> fmt::Result {
        let Told { number, report, smallest, steps, settled } = self;
        write!(f, "Told {{ number: {number}, report: {report:?}, smallest: {smallest:016x}, ")?;
        write!(f, "steps: {steps}, settled: {settled} }}")
    }
}

/// Makes a call on what is lent.
pub type Entry<'a, T> = &'a dyn Fn(&Call<T>, &mut Lent<T>) -> Told;

/// A width at which the port can be called.
pub trait Port: Width {
    /// What a program says where the library was not there when it was built.
    const ABSENT: &'static str;

    /// The port's calls. build.rs says where the library is looked for; where it is not there, None.
    fn port() -> Option<Entry<'static, Self>>;
}

impl Port for f64 {
    const ABSENT: &'static str = "built without the port's calls; make them with `tools/static-libraries host_entries`";

    #[cfg(entries)]
    fn port() -> Option<Entry<'static, f64>> {
        Some(&linked::run)
    }

    #[cfg(not(entries))]
    fn port() -> Option<Entry<'static, f64>> {
        None
    }
}

impl Port for f32 {
    const ABSENT: &'static str =
        "built without the port's f32 calls; make them with `tools/static-libraries host_entries32`";

    #[cfg(entries32)]
    fn port() -> Option<Entry<'static, f32>> {
        Some(&linked32::run)
    }

    #[cfg(not(entries32))]
    fn port() -> Option<Entry<'static, f32>> {
        None
    }
}

/// The exported calls of one width, whose names end with the suffix.
#[cfg(any(entries, entries32))]
macro_rules! linked {
    ($module:ident, $t:ident, $suffix:literal) => {
        #[rustfmt::skip]
        mod $module {
            use super::Told;
            use crate::lent::Lent;
            use vectors::call::{Call, Function::*};

            type Read = *const $t;
            type Write = *mut $t;
            type Report = *mut usize;

            // A slice passes as a pointer and then a length.
            unsafe extern "C" {
                #[link_name = concat!("entry_expm", $suffix)]
                fn expm(m: usize, n: usize, a: Read, al: usize, x: Write, xl: usize, w: Write, wl: usize, r: Report, rl: usize) -> u64;
                #[link_name = concat!("entry_logm", $suffix)]
                fn logm(m: usize, n: usize, a: Read, al: usize, x: Write, xl: usize, w: Write, wl: usize, r: Report, rl: usize) -> u64;
                #[link_name = concat!("entry_sqrtm", $suffix)]
                fn sqrtm(m: usize, n: usize, a: Read, al: usize, x: Write, xl: usize, w: Write, wl: usize, r: Report, rl: usize) -> u64;
                #[link_name = concat!("entry_cosm", $suffix)]
                fn cosm(m: usize, n: usize, a: Read, al: usize, x: Write, xl: usize, w: Write, wl: usize, r: Report, rl: usize) -> u64;
                #[link_name = concat!("entry_sinm", $suffix)]
                fn sinm(m: usize, n: usize, a: Read, al: usize, x: Write, xl: usize, w: Write, wl: usize, r: Report, rl: usize) -> u64;
                #[link_name = concat!("entry_powm", $suffix)]
                fn powm(m: usize, n: usize, a: Read, al: usize, p: $t, x: Write, xl: usize, w: Write, wl: usize,
                    r: Report, rl: usize) -> u64;
                #[link_name = concat!("entry_frechet_expm", $suffix)]
                fn frechet_expm(m: usize, n: usize, a: Read, al: usize, k: usize, l: usize, e: Read, el: usize,
                    x: Write, xl: usize, y: Write, yl: usize, w: Write, wl: usize, r: Report, rl: usize) -> u64;
                #[link_name = concat!("entry_frechet_logm", $suffix)]
                fn frechet_logm(m: usize, n: usize, a: Read, al: usize, k: usize, l: usize, e: Read, el: usize,
                    x: Write, xl: usize, y: Write, yl: usize, w: Write, wl: usize, r: Report, rl: usize) -> u64;
                #[link_name = concat!("entry_frechet_sqrtm", $suffix)]
                fn frechet_sqrtm(m: usize, n: usize, a: Read, al: usize, k: usize, l: usize, e: Read, el: usize,
                    x: Write, xl: usize, y: Write, yl: usize, w: Write, wl: usize, r: Report, rl: usize) -> u64;
                #[link_name = concat!("entry_frechet_sqrtm_sylvester", $suffix)]
                fn frechet_sqrtm_sylvester(m: usize, n: usize, a: Read, al: usize, k: usize, l: usize, e: Read, el: usize,
                    x: Write, xl: usize, y: Write, yl: usize, w: Write, wl: usize, r: Report, rl: usize) -> u64;
                #[link_name = concat!("entry_cond_expm", $suffix)]
                fn cond_expm(m: usize, n: usize, a: Read, al: usize, w: Write, wl: usize, v: Write, vl: usize, r: Report, rl: usize) -> u64;
                #[link_name = concat!("entry_compute", $suffix)]
                fn compute(m: usize, n: usize, a: Read, al: usize, x: Write, xl: usize, p: *mut usize, pl: usize,
                    w: Write, wl: usize, r: Report, rl: usize) -> u64;
                #[link_name = concat!("entry_solve", $suffix)]
                fn solve(m: usize, n: usize, a: Read, al: usize, p: *const usize, pl: usize, k: usize, l: usize, b: Read, bl: usize,
                    x: Write, xl: usize, r: Report, rl: usize) -> u64;
                #[link_name = concat!("entry_determinant", $suffix)]
                fn determinant(m: usize, n: usize, a: Read, al: usize, p: *const usize, pl: usize, v: Write, vl: usize,
                    r: Report, rl: usize) -> u64;
                #[link_name = concat!("entry_kron", $suffix)]
                fn kron(m: usize, n: usize, a: Read, al: usize, k: usize, l: usize, b: Read, bl: usize, x: Write, xl: usize,
                    r: Report, rl: usize) -> u64;
                #[link_name = concat!("entry_kron_sum", $suffix)]
                fn kron_sum(m: usize, n: usize, a: Read, al: usize, k: usize, l: usize, b: Read, bl: usize, x: Write, xl: usize,
                    r: Report, rl: usize) -> u64;
            }

            pub fn run(c: &Call<$t>, lent: &mut Lent<$t>) -> Told {
                let (m, n, k, l) = (c.rows, c.columns, c.companion_rows, c.companion_columns);
                let (a, al, e, el) = (c.matrix.as_ptr(), c.matrix.len(), c.companion.as_ptr(), c.companion.len());
                let (q, ql) = (c.pivots.as_ptr(), c.pivots.len());
                let [first, second] = lent.outputs.each_mut().map(|x| x.lent_mut());
                let (x, xl, y, yl) = (first.as_mut_ptr().cast(), first.len(), second.as_mut_ptr().cast(), second.len());
                let room = lent.room.lent_mut();
                let (w, wl) = (room.as_mut_ptr().cast(), room.len());
                let pivots = lent.pivots.lent_mut();
                let (p, pl) = (pivots.as_mut_ptr(), pivots.len());
                let numbers = lent.numbers.lent_mut();
                let (v, vl) = (numbers.as_mut_ptr().cast(), numbers.len());
                let mut report = [usize::MAX; 5];
                let (r, rl) = (report.as_mut_ptr(), report.len());
                // SAFETY: the pointers and lengths are those of slices that do not overlap, and every pattern of bits is a number. The calls have no
                // `requires`.
                let number = unsafe {
                    match c.function {
                        Expm => expm(m, n, a, al, x, xl, w, wl, r, rl),
                        Logm => logm(m, n, a, al, x, xl, w, wl, r, rl),
                        Sqrtm => sqrtm(m, n, a, al, x, xl, w, wl, r, rl),
                        Powm => powm(m, n, a, al, c.exponent, x, xl, w, wl, r, rl),
                        Cosm => cosm(m, n, a, al, x, xl, w, wl, r, rl),
                        Sinm => sinm(m, n, a, al, x, xl, w, wl, r, rl),
                        FrechetExpm => frechet_expm(m, n, a, al, k, l, e, el, x, xl, y, yl, w, wl, r, rl),
                        FrechetLogm => frechet_logm(m, n, a, al, k, l, e, el, x, xl, y, yl, w, wl, r, rl),
                        FrechetSqrtm => frechet_sqrtm(m, n, a, al, k, l, e, el, x, xl, y, yl, w, wl, r, rl),
                        CondExpm => cond_expm(m, n, a, al, w, wl, v, vl, r, rl),
                        FrechetSqrtmSylvester => {
                            frechet_sqrtm_sylvester(m, n, a, al, k, l, e, el, x, xl, y, yl, w, wl, r, rl)
                        }
                        LuCompute => compute(m, n, a, al, x, xl, p, pl, w, wl, r, rl),
                        LuSolve => solve(m, n, a, al, q, ql, k, l, e, el, x, xl, r, rl),
                        LuDeterminant => determinant(m, n, a, al, q, ql, v, vl, r, rl),
                        Kron => kron(m, n, a, al, k, l, e, el, x, xl, r, rl),
                        KronSum => kron_sum(m, n, a, al, k, l, e, el, x, xl, r, rl),
                    }
                };
                let [first, second, smallest, steps, settled] = report;
                assert!(settled <= 1, "{} reports {settled} where 1 or 0 says whether it settled", c.function.name());
                Told { number: number as usize, report: [first, second], smallest: smallest as u64, steps, settled: settled == 1 }
            }
        }
    };
}

#[cfg(entries)]
linked!(linked, f64, "");
#[cfg(entries32)]
linked!(linked32, f32, "32");

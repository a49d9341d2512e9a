//! The port's calls, where their libraries were there when this was built.

use calls::entries::Port;
use calls::make::written;
use calls::run::{judge, run};
use vectors::answer::answer;
use vectors::call::{FUNCTIONS, Function, Function::*, line};
use vectors::given::given;

/// `cargo test --quiet` does not say why tests are ignored. What is written to standard error itself is shown.
#[test]
#[cfg(not(all(entries, entries32)))]
fn the_calls_are_not_there() {
    use std::io::Write;
    let absent = [(f64::port().is_none(), f64::ABSENT), (f32::port().is_none(), f32::ABSENT)];
    for (_, absent) in absent.iter().filter(|(is_absent, _)| *is_absent) {
        writeln!(std::io::stderr(), "calls were not compared: {absent}").unwrap();
    }
}

/// The refusals that the calls of each function must show.
fn refusals(function: Function) -> &'static [usize] {
    match function {
        Expm | Cosm | Sinm => &[1, 2, 4, 5, 6, 11, 12, 17],
        Logm => &[1, 2, 4, 5, 6, 10, 11, 13],
        Sqrtm => &[1, 2, 4, 5, 6, 10, 13],
        Powm => &[1, 2, 4, 5, 6, 8, 11, 12, 13, 17],
        FrechetExpm => &[1, 2, 3, 4, 5, 6, 7, 12, 17],
        FrechetLogm => &[1, 2, 3, 4, 5, 6, 7, 10, 11, 13],
        FrechetSqrtm | FrechetSqrtmSylvester => &[1, 2, 3, 4, 5, 6, 7, 10, 13],
        CondExpm => &[1, 2, 4, 5, 6, 12, 17],
        LuCompute => &[2, 4, 5, 14],
        LuSolve => &[2, 3, 4, 5, 9],
        LuDeterminant => &[2, 4, 5, 9],
        Kron => &[4, 5],
        KronSum => &[2, 3, 4, 5],
    }
}

/// The orders that are answered: 1 is refused where a function of a number would be needed.
fn orders(function: Function) -> std::ops::RangeInclusive<usize> {
    let least = if matches!(function, Expm | Logm | Powm | Cosm | Sinm | FrechetLogm) { 2 } else { 1 };
    least..=8
}

/// No difference, and the calls reach every function, every order and every refusal that it has.
fn does_not_differ<T: Port>() {
    let tally = run::<T>(T::port().expect(T::ABSENT), 1, 0..12_000, |_, _| {}).unwrap_or_else(|d| panic!("{d}"));
    println!("{}\n{tally}", T::NAME);
    for (function, name) in FUNCTIONS {
        assert_eq!(tally.refusals(function), refusals(function), "{name}");
        for order in orders(function) {
            assert!(tally.orders(function).contains(&order), "{name} {order}");
        }
    }
    assert!(tally.left_out() > 0 && tally.left_out() * 10 < tally.compared(), "{tally}");
}

/// The calls that are written out, those whose steps run out or settle in the last pass among them.
fn does_not_differ_where_written<T: Port>() {
    for (function, _) in FUNCTIONS.iter().filter(|(function, _)| function.coded()) {
        for call in given::<T>(*function) {
            let (outcome, trial) = (answer(&call), written(call));
            let verdict = judge(T::port().expect(T::ABSENT), &trial, &outcome);
            assert!(verdict.is_ok(), "{}\n{}", line(&trial.call, &outcome).unwrap_or_default(), verdict.unwrap_err());
        }
    }
}

#[test]
#[cfg_attr(not(entries), ignore = "the library of the port's calls is not there")]
fn the_calls_do_not_differ() {
    does_not_differ::<f64>();
    does_not_differ_where_written::<f64>();
}

#[test]
#[cfg_attr(not(entries32), ignore = "the library of the port's f32 calls is not there")]
fn the_f32_calls_do_not_differ() {
    does_not_differ::<f32>();
    does_not_differ_where_written::<f32>();
}

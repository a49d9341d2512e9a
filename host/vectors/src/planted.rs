//! Vectors that are wrong in one place. A program that compares vectors must say that they differ.

use crate::answer::answer;
use crate::call::{Call, Done, Function, Outcome};
use crate::cases::case;
use crate::random::Random;
use crate::width::Width;

/// The longest output of a planted call, so that its line is short.
const LONGEST: usize = 64;

/// The last number of the last output that has numbers, where it is finite and the call can be compared.
fn last_number<T: Width>(done: &mut Done<T>) -> Option<&mut T> {
    if done.near || done.outputs.iter().any(|x| x.len() > LONGEST) {
        return None;
    }
    done.outputs.iter_mut().rev().find(|x| !x.is_empty())?.last_mut().filter(|x| x.is_finite())
}

/// The first call of a function that is done and that the change can be made to, with the outcome that it makes wrong.
fn changed<T: Width>(function: Function, change: impl Fn(&mut Done<T>) -> bool) -> (Call<T>, Outcome<T>) {
    let mut random = Random::new(function.sequence());
    loop {
        let call: Call<T> = case(function, &mut random);
        let mut outcome = answer(&call);
        if let Outcome::Done(done) = &mut outcome
            && change(done)
        {
            return (call, outcome);
        }
    }
}

/// Another last bit of the last number.
fn wrong_output<T: Width>(done: &mut Done<T>) -> bool {
    let last = last_number(done);
    last.map(|x| *x = T::of_bits(x.bits() ^ 1)).is_some()
}

/// Another last bit of the smallest pivot, which is finite where the function factors; with another last bit plus infinity is a NaN.
fn wrong_smallest<T: Width>(function: Function, done: &mut Done<T>) -> bool {
    let suits = last_number(done).is_some() && done.smallest.is_finite() == function.factors();
    if suits {
        done.smallest = f64::from_bits(done.smallest.to_bits() ^ 1);
    }
    suits
}

/// One step more or less. The call has steps where the function iterates.
fn wrong_steps<T: Width>(function: Function, done: &mut Done<T>) -> bool {
    let suits = last_number(done).is_some() && (done.steps > 0) == function.iterates();
    if suits {
        done.steps ^= 1;
    }
    suits
}

/// Settled where it is not, or the other way round.
fn wrong_settled<T: Width>(done: &mut Done<T>) -> bool {
    let suits = last_number(done).is_some();
    if suits {
        done.settled = !done.settled;
    }
    suits
}

/// Four calls that are done, each with an outcome that is wrong in one last bit: of the last number of its outputs, of its smallest pivot, of its steps, and
/// in whether it settled. Each function has them.
pub fn planted<T: Width>(function: Function) -> [(Call<T>, Outcome<T>); 4] {
    [
        changed(function, wrong_output),
        changed(function, |done| wrong_smallest(function, done)),
        changed(function, |done| wrong_steps(function, done)),
        changed(function, wrong_settled),
    ]
}

/// The bits of 2, and those of its square root with another last bit.
pub fn planted_root<T: Width>() -> (u64, u64) {
    let x = T::of(2.0);
    (x.bits(), x.sqrt().bits() ^ 1)
}

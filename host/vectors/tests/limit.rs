//! Question 17: more than 64 halvings are refused.

use std::ops::RangeInclusive;
use vectors::answer::answer;
use vectors::call::{Call, FUNCTIONS, Function, Function::*, Outcome, Refusal};
use vectors::cases::case;
use vectors::norms::source_halvings;
use vectors::random::Random;
use vectors::width::Width;

/// What a call reports: number 0 and its halvings where it is done.
fn told<T: Width>(call: &Call<T>) -> Refusal {
    match answer(call) {
        Outcome::Done(done) => Refusal(0, done.halvings, 0),
        Outcome::Refused(refusal) => refusal,
        Outcome::Parted => panic!("the source counts other halvings: {call:?}"),
    }
}

/// The functions that halve the matrix that they are given, or a block of it.
fn halving() -> impl Iterator<Item = Function> {
    FUNCTIONS.iter().map(|(function, _)| *function).filter(|f| f.halves() && *f != Powm)
}

/// A call on [[0, x], [0, y]] with the direction 0.
fn column<T: Width>(function: Function, x: T, y: T) -> Refusal {
    let zero = T::zero();
    told(&Call::coded(function, 2, &[zero, x, zero, y], &[zero; 4], zero))
}

/// Most is the number of halvings at the largest number.
fn is_refused<T: Width>(most: usize) {
    let (limit, largest, zero) = (T::power(64), T::largest(), T::zero());
    for function in halving() {
        assert_eq!(column(function, limit.next_down(), zero), Refusal(0, 64, 0));
        assert_eq!(column(function, limit, zero), Refusal(0, 64, 0));
        assert_eq!(column(function, limit.next_up(), zero), Refusal(17, 65, 0));
        assert_eq!(column(function, largest, zero), Refusal(17, most, 0));
        assert_eq!(column(function, largest, largest), Refusal(12, 0, 0));
    }
    // The source takes 64 halvings here, and would be left out.
    assert_eq!(source_halvings(limit.next_up()), 64);
}

#[test]
fn more_than_64_halvings_are_refused() {
    is_refused::<f64>(1024);
    is_refused::<f32>(128);
}

/// The logarithm of [[1, x], [0, 1]] is [[0, x], [0, 0]]. A fractional power reports its exponential's halvings where it is refused, and 0 where it is done.
fn powers_are_refused<T: Width>() {
    let power = |x: T, p: f64| told(&Call::coded(Powm, 2, &[T::one(), x, T::zero(), T::one()], &[], T::of(p)));
    let limit = T::power(65);
    assert_eq!(power(T::of(1e25), 0.5), Refusal(17, 83, 0));
    assert_eq!(power(limit, 0.5), Refusal(0, 0, 0));
    assert_eq!(power(limit.next_up(), 0.5), Refusal(17, 65, 0));
    assert_eq!(power(T::largest(), 2.5), Refusal(12, 0, 0));
    // A whole power has no exponential.
    assert_eq!(power(T::of(1e25), 2.0), Refusal(0, 0, 0));
}

#[test]
fn powers_of_more_than_64_halvings_are_refused() {
    powers_are_refused::<f64>();
    powers_are_refused::<f32>();
}

/// Random calls of each function meet question 17 on both sides of its limit. A power that is done does not say its halvings.
fn is_met<T: Width>() {
    for function in halving().chain([Powm]) {
        let mut r = Random::new(1);
        let outcomes: Vec<Outcome<T>> = (0..1000).map(|_| answer(&case(function, &mut r))).collect();
        let met = |number: usize, halvings: RangeInclusive<usize>| {
            let meets = |outcome: &&Outcome<T>| match outcome {
                Outcome::Done(done) => number == 0 && halvings.contains(&done.halvings),
                Outcome::Refused(Refusal(n, first, _)) => number == *n && halvings.contains(first),
                Outcome::Parted => false,
            };
            outcomes.iter().filter(meets).count()
        };
        assert!(met(17, 65..=68) >= 5 && met(17, 69..=1024) >= 5, "{}", function.name());
        assert!(met(0, 60..=64) >= 5 || function == Powm, "{}", function.name());
    }
}

#[test]
fn random_calls_meet_the_limit() {
    is_met::<f64>();
    is_met::<f32>();
}

//! What takes many magnitudes, alone: the 1-norm, the search for a pivot and LU of order 64, on numbers with signs at random and on the same with no sign.
//! Each run takes other numbers of a long list, so that a processor cannot learn their signs.

use crate::timing::least_times;
use calls::entries::{Entry, Port};
use calls::kernels::{ABSENT, Kernels, Steps};
use calls::lent::Lent;
use std::hint::black_box;
use std::process::exit;
use std::time::Duration;
use vectors::call::{Call, Function::LuCompute};
use vectors::random::Random;
use vectors::width::Width;

/// The order of the search and of LU, and the length of a workspace.
const ORDER: usize = 64;
const ROOM: usize = 8192;

/// A long list of numbers, and where the next run's begin.
struct Numbers<T> {
    list: Vec<T>,
    next: usize,
}

impl<T: Width> Numbers<T> {
    /// Magnitudes from 1 to 2, the same in each list, with signs at random or with none.
    fn new(signs: bool) -> Numbers<T> {
        let mut random = Random::new(104);
        let mut draw = || {
            let (x, minus) = (1.0 + (random.bits() >> 11) as f64 / (1u64 << 53) as f64, random.bits() >> 63 == 1);
            T::of(if signs && minus { -x } else { x })
        };
        Numbers { list: (0..16 * ROOM).map(|_| draw()).collect(), next: 0 }
    }

    fn take(&mut self, length: usize) -> &[T] {
        self.next = (self.next + 4099) % (15 * ROOM);
        &self.list[self.next..self.next + length]
    }
}

/// What is timed in every width: a name, an order, and how many numbers a run takes.
type Run = (&'static str, usize, usize);

/// Times one thing on both lists and prints the times.
fn time<T: Width>((name, n, length): Run, samples: usize, least: Duration, mut run: impl FnMut(&[T]) + Clone) {
    let (mut signed, mut plain, mut again) = (Numbers::new(true), Numbers::new(false), run.clone());
    let [random, positive] =
        least_times(samples, least, &mut [&mut || run(signed.take(length)), &mut || again(plain.take(length))]);
    println!("signs {name} {n} {} random {random:.1} ns positive {positive:.1} ns", T::NAME);
}

fn report<T: Kernels>(steps: Steps<T>, entry: Entry<T>, samples: usize, least: Duration) {
    for n in [8, 16] {
        time::<T>(("norm_1", n, ROOM), samples, least, |w| {
            black_box((steps.norm)(black_box(w), n));
        });
    }
    time::<T>(("find_pivot", ORDER, ORDER * ORDER), samples, least, |m| {
        black_box((steps.find_pivot)(black_box(m), 0));
    });
    let mut call = lu_call::<T>();
    let mut lent = Lent::new(&call, &mut Random::new(1));
    time::<T>(("lu_compute", ORDER, ORDER * ORDER), samples, least, move |m| {
        call.matrix.copy_from_slice(m);
        assert_eq!(black_box(entry(black_box(&call), &mut lent)).number, 0);
    });
}

/// A call of LU of order 64, whose matrix is still to be filled.
fn lu_call<T: Width>() -> Call<T> {
    let mut c = Call::new(LuCompute);
    (c.rows, c.columns, c.room) = (ORDER, ORDER, ROOM);
    (c.matrix, c.pivots) = (vec![T::default(); ORDER * ORDER], vec![0; ORDER]);
    c.outputs[0] = c.output_length();
    c
}

/// Times them in both widths.
pub fn magnitudes(samples: usize, least: Duration) {
    let (Some(wide), Some(narrow)) = (f64::steps(), f32::steps()) else {
        eprintln!("bench: {ABSENT}");
        exit(2)
    };
    let (Some(wide_entry), Some(narrow_entry)) = (f64::port(), f32::port()) else {
        eprintln!("bench: {}", if f64::port().is_none() { f64::ABSENT } else { f32::ABSENT });
        exit(2)
    };
    report(wide, wide_entry, samples, least);
    report(narrow, narrow_entry, samples, least);
}

#[cfg(test)]
mod tests {
    use super::*;

    /// The largest of the sums of the columns' magnitudes, from 0 on, in the order of the rows.
    fn norm(w: &[f64], n: usize) -> f64 {
        (0..n).map(|j| (0..n).fold(0.0, |sum, i| sum + w[i * n + j].abs())).fold(0.0, f64::max)
    }

    /// The first row of the largest magnitude in column k, from row k on.
    fn find_pivot(m: &[f64], k: usize) -> usize {
        (k..ORDER).fold(k, |p, i| if m[p * ORDER + k].abs() < m[i * ORDER + k].abs() { i } else { p })
    }

    /// The steps give what they say, where the library is there.
    #[test]
    fn the_steps_are_right() {
        let Some(steps) = f64::steps() else { return };
        let mut numbers = Numbers::new(true);
        for k in 0..ORDER {
            let w = numbers.take(ROOM);
            assert_eq!((steps.norm)(w, 1 + k % 16), norm(w, 1 + k % 16));
            let m = numbers.take(ORDER * ORDER);
            assert_eq!((steps.find_pivot)(m, k), find_pivot(m, k));
        }
    }

    /// Both lists have the same magnitudes, and about half of the signs are minus.
    #[test]
    fn the_lists_differ_in_signs_alone() {
        let (signed, plain) = (Numbers::<f32>::new(true), Numbers::<f32>::new(false));
        assert!(signed.list.iter().zip(&plain.list).all(|(x, y)| x.abs() == *y));
        let minus = signed.list.iter().filter(|x| **x < 0.0).count();
        assert!((7 * ROOM..9 * ROOM).contains(&minus));
    }

    /// The report, where the libraries are there.
    #[test]
    fn the_report_runs() {
        if let (Some(steps), Some(entry)) = (f64::steps(), f64::port()) {
            report(steps, entry, 1, Duration::ZERO);
        }
        if let (Some(steps), Some(entry)) = (f32::steps(), f32::port()) {
            report(steps, entry, 1, Duration::ZERO);
        }
    }
}

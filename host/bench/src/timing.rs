//! The least of several samples.

use std::time::{Duration, Instant};

/// How often something is run in one sample, so that a sample takes at least this long.
fn repeats(least: Duration, run: &mut dyn FnMut()) -> u32 {
    let mut count = 1;
    loop {
        let start = Instant::now();
        (0..count).for_each(|_| run());
        if start.elapsed() >= least {
            return count;
        }
        count *= 2;
    }
}

/// Nanoseconds of one run: the least of the samples. The samples of all runs take turns, so that a busy machine meets all of them.
pub fn least_times<const N: usize>(samples: usize, least: Duration, runs: &mut [&mut dyn FnMut(); N]) -> [f64; N] {
    let counts = runs.each_mut().map(|run| repeats(least, run));
    let mut times = [f64::INFINITY; N];
    for _ in 0..samples {
        for k in 0..N {
            let start = Instant::now();
            (0..counts[k]).for_each(|_| runs[k]());
            times[k] = times[k].min(start.elapsed().as_nanos() as f64 / f64::from(counts[k]));
        }
    }
    times
}

//! `calls SEED COUNT [FIRST]` compares COUNT of the port's calls with the source, from call FIRST (0) on; with f32 before the other words, its f32 calls.

use calls::entries::Port;
use calls::run::run;
use calls::tally::Tally;
use std::env::args;
use std::process::exit;
use std::time::{Duration, Instant};

fn usage() -> ! {
    eprintln!("calls [f32] SEED COUNT [FIRST]");
    exit(2)
}

/// A line of progress from time to time.
fn progress() -> impl FnMut(u64, &Tally) {
    let mut next = Instant::now() + Duration::from_secs(5);
    move |number, tally| {
        if Instant::now() >= next {
            eprintln!("call {number}: {} compared, {} left out", tally.compared(), tally.left_out());
            next += Duration::from_secs(5);
        }
    }
}

fn compare<T: Port>(seed: u64, count: u64, first: u64) {
    let Some(entry) = T::port() else {
        eprintln!("calls: {}", T::ABSENT);
        exit(2)
    };
    eprintln!("{}, seed {seed}, calls {first} to {}", T::NAME, first + count);
    match run::<T>(entry, seed, first..first + count, progress()) {
        Ok(tally) => println!("{tally}\nno difference"),
        Err(difference) => {
            println!("seed {seed}: {difference}");
            exit(1)
        }
    }
}

fn main() {
    let words: Vec<String> = args().skip(1).collect();
    let narrow = words.first().is_some_and(|word| word == "f32");
    let numbers: Result<Vec<u64>, _> = words[usize::from(narrow)..].iter().map(|word| word.parse()).collect();
    let (seed, count, first) = match numbers.as_deref() {
        Ok([seed, count]) => (*seed, *count, 0),
        Ok([seed, count, first]) => (*seed, *count, *first),
        _ => usage(),
    };
    if narrow { compare::<f32>(seed, count, first) } else { compare::<f64>(seed, count, first) }
}

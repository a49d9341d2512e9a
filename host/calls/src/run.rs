//! Makes trials' calls, up to the first that differs.

use crate::check::{Verdict, check};
use crate::entries::Entry;
use crate::make::{Trial, trial};
use crate::tally::Tally;
use std::fmt;
use vectors::answer::answer;
use vectors::call::{Call, Outcome, line};
use vectors::width::Width;

/// A difference: the number of the trial, its call, the line of `vectors` for it, and what differs.
pub struct Difference<T> {
    pub number: u64,
    pub call: Box<Call<T>>,
    pub line: Option<String>,
    pub fault: String,
}

impl<T: Width> fmt::Display for Difference<T> {
    fn fmt(&self, f: &mut fmt::Formatter) -> fmt::Result {
        writeln!(f, "call {} ({}) differs:", self.number, T::NAME)?;
        match &self.line {
            Some(line) => writeln!(f, "{line}")?,
            None => writeln!(f, "{:?}", self.call)?,
        }
        write!(f, "{}", self.fault)
    }
}

/// Makes the call of a trial, and holds what it does to the outcome that it must have.
pub fn judge<T: Width>(entry: Entry<T>, t: &Trial<T>, outcome: &Outcome<T>) -> Result<Verdict, String> {
    let before = t.lent();
    let mut after = before.clone();
    let told = entry(&t.call, &mut after);
    check(&t.call, outcome, &before, &after, told)
}

/// The counts of all trials, or the first difference. `progress` sees the counts after each trial.
pub fn run<T: Width>(
    entry: Entry<T>,
    seed: u64,
    numbers: std::ops::Range<u64>,
    mut progress: impl FnMut(u64, &Tally),
) -> Result<Tally, Difference<T>> {
    let mut tally = Tally::default();
    for number in numbers {
        let t = trial::<T>(seed, number);
        let outcome = answer(&t.call);
        match judge(entry, &t, &outcome) {
            Ok(verdict) => tally.add(&t.call, &outcome, verdict),
            Err(fault) => {
                let line = line(&t.call, &outcome);
                return Err(Difference { number, call: Box::new(t.call), line, fault });
            }
        }
        progress(number, &tally);
    }
    Ok(tally)
}

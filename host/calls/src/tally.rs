//! Counts of the calls that were compared, by function and by refusal.

use crate::check::Verdict;
use std::collections::{BTreeMap, BTreeSet};
use std::fmt;
use vectors::call::{Call, FUNCTIONS, Function, Outcome, Refusal};

/// The calls of one function.
#[derive(Clone, Default)]
struct Calls {
    done: usize,
    left_out: usize,
    agreeing: usize,
    refused: BTreeMap<usize, usize>,
    /// The orders of calls that are done.
    orders: BTreeSet<usize>,
}

#[derive(Clone, Default)]
pub struct Tally([Calls; FUNCTIONS.len()]);

impl Tally {
    pub fn add<T>(&mut self, call: &Call<T>, outcome: &Outcome<T>, verdict: Verdict) {
        let calls = &mut self.0[call.function as usize];
        match (verdict, outcome) {
            (Verdict::LeftOut(agrees), _) => {
                calls.left_out += 1;
                calls.agreeing += usize::from(agrees);
            }
            (_, Outcome::Refused(Refusal(number, _, _))) => *calls.refused.entry(*number).or_default() += 1,
            _ => {
                calls.done += 1;
                calls.orders.insert(call.rows);
            }
        }
    }

    fn sum(&self, count: impl Fn(&Calls) -> usize) -> usize {
        self.0.iter().map(count).sum()
    }

    pub fn refused(&self) -> usize {
        self.sum(|c| c.refused.values().sum())
    }

    pub fn compared(&self) -> usize {
        self.sum(|c| c.done) + self.refused()
    }

    pub fn left_out(&self) -> usize {
        self.sum(|c| c.left_out)
    }

    /// The refusals that calls of this function met.
    pub fn refusals(&self, function: Function) -> Vec<usize> {
        self.0[function as usize].refused.keys().copied().collect()
    }

    /// The orders of this function's calls that are done.
    pub fn orders(&self, function: Function) -> &BTreeSet<usize> {
        &self.0[function as usize].orders
    }
}

impl fmt::Display for Tally {
    fn fmt(&self, f: &mut fmt::Formatter) -> fmt::Result {
        writeln!(f, "{:<24}{:>9}{:>10}  refused (number: count)", "function", "done", "left out")?;
        for (calls, (_, name)) in self.0.iter().zip(FUNCTIONS) {
            let refused: Vec<String> = calls.refused.iter().map(|(number, n)| format!("{number}: {n}")).collect();
            writeln!(f, "{name:<24}{:>9}{:>10}  {}", calls.done, calls.left_out, refused.join(", "))?;
        }
        write!(f, "calls: {} compared, {} of them refused; ", self.compared(), self.refused())?;
        write!(f, "{} left out near powers of two", self.left_out())?;
        write!(f, " ({} of these do as the source)", self.sum(|c| c.agreeing))
    }
}

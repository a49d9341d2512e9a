//! Counts of what was compared, by refusal and by what was refused.

use super::expected::{Outcome, Refused};
use std::fmt;

/// The bytes and slices that a refusal names, in the order in which they are asked.
const BYTES: [&str; 6] = ["order", "directions", "exponents", "tasks", "code", "index"];
const SLICES: [&str; 5] = ["A", "directions", "exponents", "tasks", "output"];

#[derive(Clone, Default)]
pub struct Tally {
    pub written: usize,
    /// Refused 16, by the byte.
    pub ranges: [usize; BYTES.len()],
    /// Refused 5, by the slice.
    pub lengths: [usize; SLICES.len()],
    /// Sheets of the generator that were written again.
    pub again: usize,
}

impl Tally {
    pub fn add(&mut self, outcome: &Outcome) {
        match outcome {
            Ok(_) => self.written += 1,
            Err(Refused::Range(byte, _)) => self.ranges[*byte as usize] += 1,
            Err(Refused::Length(slice, _, _)) => self.lengths[*slice as usize] += 1,
        }
    }

    pub fn refused(&self) -> usize {
        self.ranges.iter().chain(&self.lengths).sum()
    }
}

/// The sum, and `name: count` for each.
fn listed(names: &[&str], counts: &[usize]) -> String {
    let each: Vec<String> = names.iter().zip(counts).map(|(name, count)| format!("{name}: {count}")).collect();
    format!("{} ({})", counts.iter().sum::<usize>(), each.join(", "))
}

impl fmt::Display for Tally {
    fn fmt(&self, f: &mut fmt::Formatter) -> fmt::Result {
        writeln!(f, "calls: {} written, {} refused", self.written, self.refused())?;
        writeln!(f, "refused 16: {}", listed(&BYTES, &self.ranges))?;
        writeln!(f, "refused 5: {}", listed(&SLICES, &self.lengths))?;
        write!(f, "sheets read and written again: {}", self.again)
    }
}

//! Runs trials against an entry, up to the first that differs.

use crate::check::check;
use crate::expected::expected;
use crate::make::{Trial, trial};
use crate::shrink::shrink;
use crate::tally::Tally;
use entry::Run;
use std::fmt;

/// A difference: the number of the trial, the least sheet found that shows it, the length of the lent output, and what differs.
pub struct Difference {
    pub number: u64,
    pub sheet: Vec<u8>,
    pub lent: usize,
    pub fault: String,
}

impl fmt::Display for Difference {
    fn fmt(&self, f: &mut fmt::Formatter) -> fmt::Result {
        let hexadecimal: String = self.sheet.iter().map(|byte| format!("{byte:02x}")).collect();
        writeln!(f, "sheet {} differs; made smaller, {} bytes:", self.number, self.sheet.len())?;
        writeln!(f, "{hexadecimal}\n{} bytes lent", self.lent)?;
        write!(f, "{}", self.fault)
    }
}

/// What the entry does otherwise than expected with these bytes and a lent output of this length, if anything.
fn fault(entry: Run, bytes: &[u8], lent: usize) -> Option<String> {
    check(entry, bytes, lent, &expected(bytes, lent).lines()).err()
}

/// The least sheet found that shows the difference of trial number.
fn difference(entry: Run, number: u64, t: &Trial) -> Difference {
    let sheet = shrink(&t.bytes, |less| fault(entry, less, t.lent).is_some());
    let fault = fault(entry, &sheet, t.lent).unwrap_or_else(|| "not at each call".to_string());
    Difference { number, sheet, lent: t.lent, fault }
}

/// The counts of all trials, or the first difference. `progress` sees the counts after each trial.
pub fn run(
    entry: Run,
    seed: u64,
    numbers: std::ops::Range<u64>,
    mut progress: impl FnMut(u64, &Tally),
) -> Result<Tally, Difference> {
    let mut tally = Tally::default();
    for number in numbers {
        let t = trial(seed, number);
        let wanted = expected(&t.bytes, t.lent);
        match check(entry, &t.bytes, t.lent, &wanted.lines()) {
            Ok(agreeing) => tally.add(&wanted, agreeing),
            Err(_) => return Err(difference(entry, number, &t)),
        }
        progress(number, &tally);
    }
    Ok(tally)
}

//! Runs trials against a writer, up to the first that differs.

use super::check::check;
use super::expected::{Outcome, written};
use super::make::{Trial, trial};
use super::sections::{Owned, of_sheet};
use super::tally::Tally;
use crate::make;
use entry::Write;
use std::fmt;

/// A difference: the number of the trial, whether its sections are those of the generator's sheet of that number, the sections, the length of the lent
/// output, and what differs.
pub struct Difference {
    pub number: u64,
    pub again: bool,
    pub sections: Owned,
    pub room: usize,
    pub fault: String,
}

impl fmt::Display for Difference {
    fn fmt(&self, f: &mut fmt::Formatter) -> fmt::Result {
        let what = if self.again { "sheet, read and written again," } else { "call" };
        writeln!(f, "{what} {} differs:\n{}output of length {}", self.number, self.sections, self.room)?;
        write!(f, "{}", self.fault)
    }
}

/// The reader must give the sections that the bytes were written from.
fn read_back(bytes: &[u8], sections: &Owned) -> Result<(), String> {
    match of_sheet(bytes) {
        Ok(back) if back == *sections => Ok(()),
        Ok(back) => Err(format!("what is written is read as\n{back}")),
        Err(refusal) => Err(format!("what is written is not accepted: {refusal:?}")),
    }
}

/// Calls the writer and compares. What is written is then read.
fn fault(write: Write, t: &Trial, outcome: &Outcome) -> Result<(), String> {
    check(write, &t.sections.lent(), t.room, outcome)?;
    outcome.as_ref().map_or(Ok(()), |bytes| read_back(bytes, &t.sections))
}

/// The sections of the generator's sheet of this number, with the sheet, where it is accepted. One output in three is just long enough.
fn sheet(seed: u64, number: u64) -> Option<(Trial, Vec<u8>)> {
    let bytes = make::trial(seed, number).bytes;
    let room = bytes.len() + [0, 1, 64][(number % 3) as usize];
    Some((Trial { sections: of_sheet(&bytes).ok()?, room }, bytes))
}

fn difference(number: u64, again: bool, t: Trial, fault: String) -> Box<Difference> {
    Box::new(Difference { number, again, sections: t.sections, room: t.room, fault })
}

/// The counts of all trials, or the first difference. `progress` sees the counts after each trial.
pub fn run(
    write: Write,
    seed: u64,
    numbers: std::ops::Range<u64>,
    mut progress: impl FnMut(u64, &Tally),
) -> Result<Tally, Box<Difference>> {
    let mut tally = Tally::default();
    for number in numbers {
        let t = trial(seed, number);
        let outcome = written(&t.sections.lent(), t.room);
        fault(write, &t, &outcome).map_err(|fault| difference(number, false, t, fault))?;
        tally.add(&outcome);
        if let Some((t, bytes)) = sheet(seed, number) {
            fault(write, &t, &Ok(bytes)).map_err(|fault| difference(number, true, t, fault))?;
            tally.again += 1;
        }
        progress(number, &tally);
    }
    Ok(tally)
}

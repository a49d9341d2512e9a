//! Counts of what was compared, by function and by refusal.

use crate::expected::{Expected, Line};
use std::collections::BTreeMap;
use std::fmt;
use vectors::call::{CODES, FUNCTIONS, Outcome, Refusal};

/// The tasks of one function.
#[derive(Clone, Default)]
struct Tasks {
    done: usize,
    left_out: usize,
    refused: BTreeMap<usize, usize>,
}

#[derive(Clone, Default)]
pub struct Tally {
    pub sheets: usize,
    short: usize,
    agreeing: usize,
    refused: BTreeMap<usize, usize>,
    tasks: [Tasks; CODES],
}

impl Tally {
    /// Adds a sheet, and how many of its tasks that are left out give the source's line all the same.
    pub fn add(&mut self, expected: &Expected, agreeing: usize) {
        self.sheets += 1;
        self.agreeing += agreeing;
        match expected {
            Expected::Short => self.short += 1,
            Expected::Refused(Refusal(number, _, _)) => *self.refused.entry(*number).or_default() += 1,
            Expected::Answered(tasks) => {
                for task in tasks {
                    let counts = &mut self.tasks[task.function as usize];
                    match (&task.line, &task.outcome) {
                        (Line::LeftOut(..), _) => counts.left_out += 1,
                        (_, Outcome::Refused(Refusal(number, _, _))) => {
                            *counts.refused.entry(*number).or_default() += 1;
                        }
                        _ => counts.done += 1,
                    }
                }
            }
        }
    }

    /// Refusals by their numbers: of tasks, of sheets, and 5 where the lent output was too short.
    pub fn refusals(&self) -> BTreeMap<usize, usize> {
        let mut all = self.refused.clone();
        for tasks in &self.tasks {
            for (number, count) in &tasks.refused {
                *all.entry(*number).or_default() += count;
            }
        }
        if self.short > 0 {
            *all.entry(5).or_default() += self.short;
        }
        all
    }

    pub fn compared(&self) -> usize {
        self.tasks.iter().map(|t| t.done + t.refused.values().sum::<usize>()).sum()
    }

    pub fn left_out(&self) -> usize {
        self.tasks.iter().map(|t| t.left_out).sum()
    }

    /// How many tasks of the function with this code are done and compared.
    pub fn done(&self, code: usize) -> usize {
        self.tasks[code].done
    }
}

/// `number: count` for each refusal.
fn listed(refusals: &BTreeMap<usize, usize>) -> String {
    let each: Vec<String> = refusals.iter().map(|(number, count)| format!("{number}: {count}")).collect();
    each.join(", ")
}

impl fmt::Display for Tally {
    fn fmt(&self, f: &mut fmt::Formatter) -> fmt::Result {
        writeln!(f, "{:<24}{:>9}{:>10}  refused (number: count)", "function", "done", "left out")?;
        for (tasks, (_, name)) in self.tasks.iter().zip(FUNCTIONS) {
            writeln!(f, "{name:<24}{:>9}{:>10}  {}", tasks.done, tasks.left_out, listed(&tasks.refused))?;
        }
        writeln!(f, "sheets: {}; refused {}; output too short: {}", self.sheets, listed(&self.refused), self.short)?;
        writeln!(f, "all refusals: {}", listed(&self.refusals()))?;
        write!(f, "tasks: {} compared, {} left out near powers of two", self.compared(), self.left_out())?;
        write!(f, " ({} of these give the source's line)", self.agreeing)
    }
}

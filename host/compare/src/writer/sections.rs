//! Sections that own their numbers, and those of a sheet.

use crate::sheet::read;
use entry::Sections;
use std::fmt;
use vectors::call::Refusal;

/// The fields are those of `Sections`.
#[derive(Clone, Debug, Default, PartialEq, Eq)]
pub struct Owned {
    pub order: usize,
    pub matrix: Vec<u64>,
    pub directions: usize,
    pub direction: Vec<u64>,
    pub exponents: usize,
    pub exponent: Vec<u64>,
    pub tasks: usize,
    pub task: Vec<u8>,
}

impl Owned {
    pub fn lent(&self) -> Sections<'_> {
        Sections {
            order: self.order,
            matrix: &self.matrix,
            directions: self.directions,
            direction: &self.direction,
            exponents: self.exponents,
            exponent: &self.exponent,
            tasks: self.tasks,
            task: &self.task,
        }
    }
}

/// The sections of a sheet, where the reader accepts it. The numbers come from the bytes and are at no time f64, so that every NaN keeps its bits.
pub fn of_sheet(bytes: &[u8]) -> Result<Owned, Refusal> {
    let sheet = read(bytes)?;
    let [_, directions, exponents, tasks, ..] = sheet.marks()[..] else { unreachable!("a sheet has four counts") };
    Ok(Owned {
        order: sheet.order,
        matrix: words(&bytes[1..directions]),
        directions: sheet.directions.len(),
        direction: words(&bytes[directions + 1..exponents]),
        exponents: sheet.exponents.len(),
        exponent: words(&bytes[exponents + 1..tasks]),
        tasks: sheet.tasks.len(),
        task: bytes[tasks + 1..].to_vec(),
    })
}

fn words(bytes: &[u8]) -> Vec<u64> {
    bytes.as_chunks().0.iter().map(|number| u64::from_le_bytes(*number)).collect()
}

/// A count, what it counts, the length of its slice, and the slice's members.
fn section(f: &mut fmt::Formatter, name: &str, count: usize, members: &[String]) -> fmt::Result {
    writeln!(f, "{name} {count}, length {}: {}", members.len(), members.join(" "))
}

impl fmt::Display for Owned {
    fn fmt(&self, f: &mut fmt::Formatter) -> fmt::Result {
        let words = |numbers: &[u64]| numbers.iter().map(|x| format!("{x:016x}")).collect::<Vec<_>>();
        let bytes: Vec<String> = self.task.iter().map(u8::to_string).collect();
        section(f, "order", self.order, &words(&self.matrix))?;
        section(f, "directions", self.directions, &words(&self.direction))?;
        section(f, "exponents", self.exponents, &words(&self.exponent))?;
        section(f, "tasks", self.tasks, &bytes)
    }
}

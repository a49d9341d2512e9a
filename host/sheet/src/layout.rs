//! The sections of a sheet, and a reader of a sheet's bytes that says in words why they are refused.

use crate::words::no_index;
use entry::{CODES, Index, Sections};
use std::ops::RangeInclusive;

/// The counts that a sheet may have.
pub const ORDERS: RangeInclusive<usize> = 1..=8;
pub const DIRECTIONS: RangeInclusive<usize> = 0..=8;
pub const EXPONENTS: RangeInclusive<usize> = 0..=8;
pub const TASKS: RangeInclusive<usize> = 1..=16;

/// The sections of a sheet. Numbers are the bits of f64 numbers.
#[derive(Clone, Debug, Default, PartialEq, Eq)]
pub struct Sheet {
    pub order: usize,
    /// Row by row.
    pub matrix: Vec<u64>,
    /// The numbers of all directions, one direction after the other.
    pub direction: Vec<u64>,
    pub exponent: Vec<u64>,
    /// Code, index, code, index.
    pub task: Vec<u8>,
}

#[derive(Clone, Copy, Debug, PartialEq, Eq)]
pub struct Task {
    pub name: &'static str,
    /// What the index names.
    pub kind: Index,
    pub index: usize,
}

impl Sheet {
    /// The numbers of each direction.
    pub fn directions(&self) -> impl Iterator<Item = &[u64]> {
        self.direction.chunks(self.order * self.order)
    }

    /// The tasks of a sheet whose codes are those of functions.
    pub fn tasks(&self) -> impl Iterator<Item = Task> {
        self.task.chunks_exact(2).map(|task| {
            let (name, kind) = CODES[usize::from(task[0])];
            Task { name, kind, index: usize::from(task[1]) }
        })
    }

    pub fn sections(&self) -> Sections<'_> {
        Sections {
            order: self.order,
            matrix: &self.matrix,
            directions: self.directions().count(),
            direction: &self.direction,
            exponents: self.exponent.len(),
            exponent: &self.exponent,
            tasks: self.task.len() / 2,
            task: &self.task,
        }
    }
}

/// Refusal 15 or 16 of a sheet.
#[derive(Clone, Debug, PartialEq, Eq)]
pub struct Refused {
    pub number: u64,
    /// The position of the byte.
    pub position: usize,
    /// What stands there, in words.
    pub found: String,
}

/// The bytes of a sheet, read from left to right. A byte's presence is asked before its range.
struct Reader<'a> {
    bytes: &'a [u8],
    at: usize,
}

impl Reader<'_> {
    /// The next bytes, which hold `what`.
    fn take<const N: usize>(&mut self, what: &str) -> Result<[u8; N], Refused> {
        let Some(bytes) = self.bytes[self.at..].first_chunk::<N>() else {
            let place = if self.at == self.bytes.len() { "before" } else { "within" };
            let found = format!("the sheet ends here, {place} {what}");
            return Err(Refused { number: 15, position: self.bytes.len(), found });
        };
        self.at += N;
        Ok(*bytes)
    }

    fn numbers(&mut self, count: usize, what: &str) -> Result<Vec<u64>, Refused> {
        (0..count).map(|_| self.take(what).map(u64::from_le_bytes)).collect()
    }

    /// A byte in its range; `wrong` says what is wrong with one that is not.
    fn byte(&mut self, what: &str, wrong: impl Fn(usize) -> Option<String>) -> Result<usize, Refused> {
        let [byte] = self.take(what)?;
        match wrong(byte.into()) {
            None => Ok(byte.into()),
            Some(found) => Err(Refused { number: 16, position: self.at - 1, found }),
        }
    }

    fn count(&mut self, what: &str, range: RangeInclusive<usize>) -> Result<usize, Refused> {
        self.byte(what, |found| {
            let wanted = || format!("{what} is {found}, and has to be from {} to {}", range.start(), range.end());
            (!range.contains(&found)).then(wanted)
        })
    }

    fn task(&mut self, number: usize, directions: usize, exponents: usize) -> Result<[u8; 2], Refused> {
        let no_code = |code| (code >= CODES.len()).then(|| format!("{code} is no code of a function"));
        let code = self.byte(&format!("the code of task {number}"), no_code)?;
        let (name, kind) = CODES[code];
        let count = indices(kind, directions, exponents);
        let wrong = |index: usize| (index >= count).then(|| no_index(name, kind, &index.to_string(), count));
        let index = self.byte(&format!("the index of task {number}"), wrong)?;
        Ok([code as u8, index as u8])
    }
}

/// How many indices a task may have.
pub fn indices(kind: Index, directions: usize, exponents: usize) -> usize {
    match kind {
        Index::Zero => 1,
        Index::Exponent => exponents,
        Index::Direction => directions,
    }
}

/// The sections that the bytes hold.
pub fn read(bytes: &[u8]) -> Result<Sheet, Refused> {
    let mut reader = Reader { bytes, at: 0 };
    let order = reader.count("the order", ORDERS)?;
    let matrix = reader.numbers(order * order, "a number of A")?;
    let directions = reader.count("the number of directions", DIRECTIONS)?;
    let direction = reader.numbers(directions * order * order, "a number of a direction")?;
    let exponents = reader.count("the number of exponents", EXPONENTS)?;
    let exponent = reader.numbers(exponents, "an exponent")?;
    let tasks = reader.count("the number of tasks", TASKS)?;
    let task: Vec<[u8; 2]> = (1..=tasks).map(|k| reader.task(k, directions, exponents)).collect::<Result<_, _>>()?;
    if reader.at < bytes.len() {
        let found = "the sheet goes on after its last task".to_string();
        return Err(Refused { number: 15, position: reader.at, found });
    }
    Ok(Sheet { order, matrix, direction, exponent, task: task.concat() })
}

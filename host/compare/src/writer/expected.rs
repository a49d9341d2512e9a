//! What the writer must do with sections: document 02's #107, read for itself. Ranges are asked before lengths, so that lengths and positions are worked out
//! from counts that are in range.

use entry::{CODES, Index, Sections};
use std::ops::Range;

/// The bytes of a sheet that are asked.
#[derive(Clone, Copy, Debug, PartialEq, Eq)]
pub enum Byte {
    Order,
    Directions,
    Exponents,
    Tasks,
    Code,
    Index,
}

/// The slices whose lengths are asked.
#[derive(Clone, Copy, Debug, PartialEq, Eq)]
pub enum Slice {
    Matrix,
    Directions,
    Exponents,
    Tasks,
    Output,
}

#[derive(Clone, Copy, Debug, PartialEq, Eq)]
pub enum Refused {
    /// 16: the position that the byte would have had.
    Range(Byte, usize),
    /// 5: the length found and the length wanted.
    Length(Slice, usize, usize),
}

impl Refused {
    /// The number and both details.
    pub fn why(self) -> [u64; 3] {
        match self {
            Refused::Range(_, position) => [16, position as u64, 0],
            Refused::Length(_, found, wanted) => [5, found as u64, wanted as u64],
        }
    }
}

/// The sheet's bytes, or why there are none.
pub type Outcome = Result<Vec<u8>, Refused>;

fn within(value: usize, range: Range<usize>, byte: Byte, position: usize) -> Result<(), Refused> {
    if range.contains(&value) { Ok(()) } else { Err(Refused::Range(byte, position)) }
}

/// How many indices a code has. The code is one.
pub fn indices(s: &Sections, code: u8) -> usize {
    match CODES[usize::from(code)].1 {
        Index::Zero => 1,
        Index::Exponent => s.exponents,
        Index::Direction => s.directions,
    }
}

/// The order and the counts, from left to right. Gives the position of the first task.
pub fn counts(s: &Sections) -> Result<usize, Refused> {
    within(s.order, 1..9, Byte::Order, 0)?;
    let direction = 8 * s.order * s.order;
    let directions = 1 + direction;
    within(s.directions, 0..9, Byte::Directions, directions)?;
    let exponents = directions + 1 + s.directions * direction;
    within(s.exponents, 0..9, Byte::Exponents, exponents)?;
    let tasks = exponents + 1 + 8 * s.exponents;
    within(s.tasks, 1..17, Byte::Tasks, tasks)?;
    Ok(tasks + 1)
}

/// The codes and indices, as far as both the count of tasks and their slice reach.
fn tasks(s: &Sections, first: usize) -> Result<(), Refused> {
    let asked = s.task.len().min(2 * s.tasks);
    for (k, task) in s.task[..asked].chunks(2).enumerate() {
        let position = first + 2 * k;
        within(usize::from(task[0]), 0..CODES.len(), Byte::Code, position)?;
        if let [code, index] = task {
            within(usize::from(*index), 0..indices(s, *code), Byte::Index, position + 1)?;
        }
    }
    Ok(())
}

/// Refusal 16.
pub fn ranges(s: &Sections) -> Result<(), Refused> {
    let first = counts(s)?;
    tasks(s, first)
}

fn exact(slice: Slice, found: usize, wanted: usize) -> Result<(), Refused> {
    if found == wanted { Ok(()) } else { Err(Refused::Length(slice, found, wanted)) }
}

/// The length of the sheet, from counts that are in range.
pub fn length(s: &Sections) -> usize {
    4 + 8 * (s.order * s.order * (1 + s.directions) + s.exponents) + 2 * s.tasks
}

/// Refusal 5, of counts that are in range and an output of this length.
pub fn lengths(s: &Sections, room: usize) -> Result<(), Refused> {
    let square = s.order * s.order;
    exact(Slice::Matrix, s.matrix.len(), square)?;
    exact(Slice::Directions, s.direction.len(), s.directions * square)?;
    exact(Slice::Exponents, s.exponent.len(), s.exponents)?;
    exact(Slice::Tasks, s.task.len(), 2 * s.tasks)?;
    if room < length(s) { Err(Refused::Length(Slice::Output, room, length(s))) } else { Ok(()) }
}

/// The bytes of sections that are accepted.
pub fn bytes(s: &Sections) -> Vec<u8> {
    let mut bytes = Vec::new();
    for (count, numbers) in [(s.order, s.matrix), (s.directions, s.direction), (s.exponents, s.exponent)] {
        bytes.push(count as u8);
        bytes.extend(numbers.iter().flat_map(|number| number.to_le_bytes()));
    }
    bytes.push(s.tasks as u8);
    bytes.extend(s.task);
    bytes
}

/// What must come of these sections and an output of this length.
pub fn written(s: &Sections, room: usize) -> Outcome {
    ranges(s)?;
    lengths(s, room)?;
    Ok(bytes(s))
}

//! Refusals in words.

use crate::layout::{Refused, Sheet, Task};
use crate::numbers;
use entry::Index;

/// An index that names nothing. `given` is the index as it was written, `count` how many there are.
pub fn no_index(name: &str, kind: Index, given: &str, count: usize) -> String {
    let what = match kind {
        Index::Zero => return format!("{name} takes no index: {given} stands where only 0 may stand"),
        Index::Exponent => "exponent",
        Index::Direction => "direction",
    };
    let there = match count {
        0 => "there is none".to_string(),
        1 => "there is 1".to_string(),
        _ => format!("there are {count}"),
    };
    format!("there is no {what} {given}: {what}s are numbered from 0, and {there}")
}

/// A refused sheet.
pub fn of_sheet(refused: &Refused) -> String {
    format!("byte {}: {} (refusal {})", refused.position, refused.found, refused.number)
}

/// An entry of a matrix that is not finite, which the details name.
fn entry(matrix: &[u64], order: usize, [row, column]: [usize; 2], name: &str) -> String {
    let found = matrix.get(row * order + column).map_or("not finite".to_string(), |bits| numbers::print(*bits));
    format!("row {row}, column {column} of {name}, both counted from 0, is {found}; every entry has to be finite")
}

/// A refused task, by the number of the refusal and its details.
pub fn of_task(sheet: &Sheet, task: Task, number: usize, details: [usize; 2]) -> String {
    let order = sheet.order;
    let words = match number {
        6 => entry(&sheet.matrix, order, details, "A"),
        7 => entry(
            sheet.directions().nth(task.index).unwrap_or(&[]),
            order,
            details,
            &format!("direction {}", task.index),
        ),
        8 => format!("exponent {} has to be finite, and is {}", task.index, numbers::print(sheet.exponent[task.index])),
        10 => format!(
            "A is the number {}; a logarithm needs one above 0, a root one that is not below 0",
            numbers::print(sheet.matrix[0])
        ),
        11 => format!("{} is ported for orders from 2 on", task.name),
        12 => "the 1-norm that sets the halvings is not finite".to_string(),
        13 => "LU refused a matrix on the way: a pivot was too small".to_string(),
        17 => format!("{} halvings would be needed, and at most 64 are made", details[0]),
        _ => format!("details {} and {}", details[0], details[1]),
    };
    format!("refused: {words} (refusal {number})")
}

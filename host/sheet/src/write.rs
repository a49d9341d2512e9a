//! Sheets written by the entry, and its refusals led back to the lines of a text.

use crate::Failure;
use crate::layout::{DIRECTIONS, EXPONENTS, Sheet, TASKS, indices};
use crate::text::{Fault, Text};
use crate::words::no_index;
use entry::{SHEET_LENGTH, Write};

/// The number of a refusal and its details.
pub type Why = [u64; 3];

/// The bytes of a sheet.
pub fn bytes(write: Write, sheet: &Sheet) -> Result<Vec<u8>, Why> {
    let (mut output, mut why) = (vec![0; SHEET_LENGTH], [0; 3]);
    match write(&sheet.sections(), &mut output, &mut why) {
        0 => Err(why),
        length => {
            output.truncate(length);
            Ok(output)
        }
    }
}

/// What a byte of a sheet says, numbers apart.
enum Place {
    Directions,
    Exponents,
    Tasks,
    Code(usize),
    Index(usize),
}

fn place(sheet: &Sheet, position: usize) -> Option<Place> {
    let directions = 1 + 8 * sheet.matrix.len();
    let exponents = directions + 1 + 8 * sheet.direction.len();
    let tasks = exponents + 1 + 8 * sheet.exponent.len();
    match position {
        _ if position == directions => Some(Place::Directions),
        _ if position == exponents => Some(Place::Exponents),
        _ if position == tasks => Some(Place::Tasks),
        _ => {
            let byte = position.checked_sub(tasks + 1)?;
            Some(if byte.is_multiple_of(2) { Place::Code(byte / 2) } else { Place::Index(byte / 2) })
        }
    }
}

/// The line of the task with a wrong index, and what is wrong.
fn index(text: &Text, task: usize) -> Option<(usize, String)> {
    let (line, task) = (text.tasks.get(task)?, text.sheet.tasks().nth(task)?);
    let count = indices(task.kind, text.directions.len(), text.exponents.len());
    Some((line.line, no_index(task.name, task.kind, &line.index, count)))
}

/// The line that a refusal is about. None where the entry refuses what no text can be wrong in.
pub fn fault(text: &Text, why: Why) -> Option<Fault> {
    let [16, position, _] = why else { return None };
    let many = |what: &str, most: usize| format!("a sheet has at most {most} {what}, and this is one more");
    let (line, message) = match place(&text.sheet, usize::try_from(position).ok()?)? {
        Place::Directions => (*text.directions.get(*DIRECTIONS.end())?, many("directions", *DIRECTIONS.end())),
        Place::Exponents => (*text.exponents.get(*EXPONENTS.end())?, many("exponents", *EXPONENTS.end())),
        Place::Tasks if text.tasks.is_empty() => {
            (text.last, "the text ends without a task, and a sheet has at least one".to_string())
        }
        Place::Tasks => (text.tasks.get(*TASKS.end())?.line, many("tasks", *TASKS.end())),
        Place::Code(task) => {
            (text.tasks.get(task)?.line, format!("the library has no {}", text.sheet.tasks().nth(task)?.name))
        }
        Place::Index(task) => index(text, task)?,
    };
    Some(Fault { line, message: format!("{message} (refusal 16, byte {position})") })
}

/// A refusal that the entry should not give.
pub fn unexpected(name: &str, [number, first, second]: Why) -> Failure {
    Failure::failed(format!("{name}: internal error: the library refused {number} with details {first} and {second}"))
}

/// The bytes of the sheet that a text describes. `name` is the text's name in messages.
pub fn sheet(write: Write, name: &str, text: &[u8]) -> Result<Vec<u8>, Failure> {
    let at = |fault: Fault| Failure::refused(format!("{name}:{}: {}", fault.line, fault.message));
    let text = crate::text::read(text).map_err(at)?;
    bytes(write, &text.sheet).map_err(|why| match fault(&text, why) {
        Some(fault) => at(fault),
        None => unexpected(name, why),
    })
}

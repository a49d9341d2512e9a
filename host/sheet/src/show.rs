//! A sheet printed as a text.

use crate::layout::{self, Sheet, Task};
use crate::write::{bytes, unexpected};
use crate::{Failure, numbers, words};
use entry::{Index, Write};

/// Lines with a comment each; the comments stand in one column.
fn commented(lines: &[(String, String)]) -> String {
    let width = lines.iter().map(|line| line.0.len()).max().unwrap_or(0);
    let text: Vec<String> = lines.iter().map(|(line, comment)| format!("{line:width$}  # {comment}\n")).collect();
    if lines.is_empty() { String::new() } else { format!("\n{}", text.concat()) }
}

fn task(task: Task) -> String {
    match task.kind {
        Index::Zero => format!("task {}", task.name),
        Index::Exponent | Index::Direction => format!("task {} {}", task.name, task.index),
    }
}

/// The text of a sheet.
pub fn text(sheet: &Sheet) -> String {
    let order = sheet.order;
    let mut text = format!("order {order}\n{}", numbers::rows(&sheet.matrix, order, ""));
    for (k, direction) in sheet.directions().enumerate() {
        text.push_str(&format!("\ndirection  # direction {k}\n{}", numbers::rows(direction, order, "")));
    }
    let exponent = |(k, bits): (usize, &u64)| (format!("exponent {}", numbers::print(*bits)), format!("exponent {k}"));
    text.push_str(&commented(&sheet.exponent.iter().enumerate().map(exponent).collect::<Vec<_>>()));
    let tasks = sheet.tasks().enumerate().map(|(k, found)| (task(found), format!("task {}", k + 1)));
    text.push_str(&commented(&tasks.collect::<Vec<_>>()));
    text
}

/// The text of the sheet that the bytes hold. Its sections are written back first, which has to give the same bytes.
pub fn show(write: Write, name: &str, sheet: &[u8]) -> Result<String, Failure> {
    let sections =
        layout::read(sheet).map_err(|refused| Failure::refused(format!("{name}: {}", words::of_sheet(&refused))))?;
    match bytes(write, &sections) {
        Ok(bytes) if bytes == sheet => Ok(text(&sections)),
        Ok(_) => Err(Failure::failed(format!("{name}: internal error: the sheet is written back as other bytes"))),
        Err(why) => Err(unexpected(name, why)),
    }
}

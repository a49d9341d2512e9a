//! A sheet run by the entry, and its lines in words.

use crate::layout::{self, Sheet, Task};
use crate::{Failure, numbers, words};
use entry::{Index, ROOM, Run};

/// What is printed, and whether the sheet or a task is refused.
#[derive(Clone, Debug, PartialEq, Eq)]
pub struct Report {
    pub text: String,
    pub refused: bool,
}

/// A line of a task, after its number.
enum Outcome<'a> {
    Done { halvings: &'a str, outputs: Vec<u64>, smallest: u64 },
    Refused { number: usize, details: [usize; 2] },
}

/// The lines of a sheet. None where what the entry writes is not text.
fn lines(run: Run, sheet: &[u8]) -> Option<String> {
    let mut output = vec![0; ROOM];
    let length = run(sheet, &mut output);
    output.truncate(length);
    String::from_utf8(output).ok()
}

fn outcome(number: usize, line: &str) -> Option<Outcome<'_>> {
    let fields: Vec<&str> = line.split(' ').collect();
    match fields[..] {
        [task, "ok", halvings, ref outputs @ .., smallest] if task == number.to_string() => {
            let bits = |field: &str| u64::from_str_radix(field, 16).ok();
            let outputs = outputs.iter().map(|field| bits(field)).collect::<Option<_>>()?;
            Some(Outcome::Done { halvings, outputs, smallest: bits(smallest)? })
        }
        [task, "no", refusal, first, second] if task == number.to_string() => Some(Outcome::Refused {
            number: refusal.parse().ok()?,
            details: [first.parse().ok()?, second.parse().ok()?],
        }),
        _ => None,
    }
}

/// The outputs of a function, by name, each with how many numbers a row has. The functions whose names start with cond_ give one number.
fn outputs(task: Task, order: usize) -> Vec<(&'static str, usize)> {
    match task.kind {
        Index::Direction => vec![("value", order), ("derivative", order)],
        _ if task.name.starts_with("cond_") => vec![("condition", 1)],
        _ => vec![("value", order)],
    }
}

/// What a task is called and what its index names.
fn heading(sheet: &Sheet, number: usize, task: Task) -> String {
    let index = match task.kind {
        Index::Zero => String::new(),
        Index::Exponent => format!(", exponent {} = {}", task.index, numbers::print(sheet.exponent[task.index])),
        Index::Direction => format!(", direction {}", task.index),
    };
    format!("task {number}: {}{index}\n", task.name)
}

/// The numbers of a task that is done. None where there are more or fewer than its function gives.
fn done(task: Task, order: usize, halvings: &str, numbers: &[u64], smallest: u64) -> Option<String> {
    let mut text = format!("halvings: {halvings}\n");
    let mut rest = numbers;
    for (name, columns) in outputs(task, order) {
        let (output, after) = rest.split_at_checked(columns * columns)?;
        text.push_str(&format!("{name}:\n{}", numbers::rows(output, columns, "    ")));
        rest = after;
    }
    let nothing =
        if smallest == f64::INFINITY.to_bits() { " (nothing was factored, or no pivot was finite)" } else { "" };
    text.push_str(&format!("smallest pivot: {}{nothing}\n", numbers::print(smallest)));
    rest.is_empty().then_some(text)
}

/// The text of all tasks. None where a line does not have the form of its task.
fn tasks(sheet: &Sheet, lines: &str) -> Option<Report> {
    let mut report = Report { text: String::new(), refused: false };
    let mut lines = lines.lines();
    for (before, task) in sheet.tasks().enumerate() {
        let (number, line) = (before + 1, lines.next()?);
        let words = match outcome(number, line)? {
            Outcome::Done { halvings, outputs, smallest } => done(task, sheet.order, halvings, &outputs, smallest)?,
            Outcome::Refused { number, details } => {
                report.refused = true;
                format!("{}\n", words::of_task(sheet, task, number, details))
            }
        };
        let between = if before == 0 { "" } else { "\n" };
        report.text.push_str(&format!("{between}{}{line}\n{words}", heading(sheet, number, task)));
    }
    lines.next().is_none().then_some(report)
}

/// Runs the sheet that the bytes hold. `name` is its name in messages.
pub fn run(run: Run, name: &str, sheet: &[u8]) -> Result<Report, Failure> {
    let internal =
        || Failure::failed(format!("{name}: internal error: the library's lines are not those of this sheet"));
    let lines = lines(run, sheet).ok_or_else(internal)?;
    match layout::read(sheet) {
        Ok(sections) => tasks(&sections, &lines).ok_or_else(internal),
        Err(refused) if lines == format!("0 no {} {} 0\n", refused.number, refused.position) => {
            Ok(Report { text: format!("the sheet is refused\n{lines}{}\n", words::of_sheet(&refused)), refused: true })
        }
        Err(_) => Err(internal()),
    }
}

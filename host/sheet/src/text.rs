//! The reader of texts. A text has one thing a line: `order N`, then N rows of A, then directions, exponents and tasks.

use crate::layout::{ORDERS, Sheet};
use crate::numbers::{self, quoted};
use entry::{CODES, Index};
use std::vec::IntoIter;

/// What is wrong with a text, and at which of its lines, which count from 1.
#[derive(Clone, Debug, PartialEq, Eq)]
pub struct Fault {
    pub line: usize,
    pub message: String,
}

/// Where a task stands, and its index as it was written.
#[derive(Clone, Debug, PartialEq, Eq)]
pub struct TaskLine {
    pub line: usize,
    pub index: String,
}

/// The sections that a text describes, and the lines where they stand.
#[derive(Clone, Debug, PartialEq, Eq)]
pub struct Text {
    pub sheet: Sheet,
    pub order: usize,
    pub directions: Vec<usize>,
    pub exponents: Vec<usize>,
    pub tasks: Vec<TaskLine>,
    /// The last line of the text.
    pub last: usize,
}

/// The fields of a line that has any.
struct Line<'a> {
    number: usize,
    fields: Vec<&'a str>,
}

impl Line<'_> {
    fn fault(&self, message: impl Into<String>) -> Fault {
        Fault { line: self.number, message: message.into() }
    }

    fn number(&self, field: &str) -> Result<u64, Fault> {
        numbers::read(field).map_err(|message| self.fault(message))
    }
}

/// The lines that are left of a text, and the number of its last one.
struct Lines<'a> {
    lines: IntoIter<Line<'a>>,
    last: usize,
}

impl<'a> Lines<'a> {
    /// The next line. `missing` says what is wanted there, after what was found instead.
    fn next(&mut self, missing: impl Fn(&str) -> String) -> Result<Line<'a>, Fault> {
        let fault = || Fault { line: self.last, message: missing("the text ends") };
        self.lines.next().ok_or_else(fault)
    }

    /// The rows of a matrix.
    fn rows(&mut self, order: usize, name: &str) -> Result<Vec<u64>, Fault> {
        let mut matrix = Vec::new();
        for row in 0..order {
            let missing =
                |found: &str| format!("{found} where a row of {name} is wanted: {name} has {row} of its {order} rows");
            let line = self.next(missing)?;
            if WORDS.contains(&line.fields[0]) {
                return Err(line.fault(missing(&found(line.fields[0]))));
            }
            for field in &line.fields {
                matrix.push(line.number(field)?);
            }
            let count = line.fields.len();
            if count != order {
                let message =
                    format!("this row of {name} has {}, and order {order} wants {order}", many(count, "number"));
                return Err(line.fault(message));
            }
        }
        Ok(matrix)
    }

    /// The line of the order, and the order.
    fn order(&mut self) -> Result<(usize, usize), Fault> {
        let missing = |found: &str| format!("{found} where order N is wanted: the order comes first");
        let line = self.next(missing)?;
        match line.fields[..] {
            ["order", field] => Ok((line.number, order(&line, field)?)),
            ["order", ..] => {
                Err(line.fault(format!("order takes one whole number, and {} here", are(line.fields.len() - 1))))
            }
            _ => Err(line.fault(missing(&found(line.fields[0])))),
        }
    }
}

/// The words that lines start with.
const WORDS: [&str; 4] = ["order", "direction", "exponent", "task"];

fn found(field: &str) -> String {
    format!("found {}", quoted(field))
}

fn many(count: usize, what: &str) -> String {
    format!("{count} {what}{}", if count == 1 { "" } else { "s" })
}

fn are(count: usize) -> String {
    if count == 1 { "1 is".to_string() } else { format!("{count} are") }
}

/// A whole number from 0 on. One that is too large for its type is out of every range.
fn whole(field: &str) -> Option<usize> {
    let digits = !field.is_empty() && field.bytes().all(|byte| byte.is_ascii_digit());
    digits.then(|| field.parse().unwrap_or(usize::MAX))
}

/// The order is asked here, since it says how many numbers follow.
fn order(line: &Line, field: &str) -> Result<usize, Fault> {
    let (low, high) = (ORDERS.start(), ORDERS.end());
    match whole(field) {
        Some(order) if ORDERS.contains(&order) => Ok(order),
        Some(_) => {
            Err(line.fault(format!("the order is {field}, and has to be from {low} to {high} (refusal 16, byte 0)")))
        }
        None => Err(line.fault(format!("{} is no whole number: the order is one from {low} to {high}", quoted(field)))),
    }
}

fn exponent(line: &Line) -> Result<u64, Fault> {
    match line.fields[..] {
        [_, field] => line.number(field),
        _ => Err(line.fault(format!("exponent takes one number on its line, and {} here", are(line.fields.len() - 1)))),
    }
}

fn code(line: &Line, name: &str) -> Result<usize, Fault> {
    CODES.iter().position(|code| code.0 == name).ok_or_else(|| {
        let names: Vec<&str> = CODES.iter().map(|code| code.0).collect();
        line.fault(format!("{} is no function: there are {}", quoted(name), names.join(", ")))
    })
}

/// The code of a task and its index as it was written; the entry asks whether it is in range.
fn task<'a>(line: &Line<'a>) -> Result<(usize, &'a str), Fault> {
    let (name, index) = match line.fields[..] {
        [_, name] => (name, None),
        [_, name, index] => (name, Some(index)),
        [_] => return Err(line.fault("task takes the name of a function, and none is here")),
        _ => {
            let count = line.fields.len() - 1;
            return Err(line.fault(format!("task takes a function and at most one index, and {count} words are here")));
        }
    };
    let code = code(line, name)?;
    match (index, CODES[code].1) {
        (Some(index), _) if whole(index).is_none() => {
            Err(line.fault(format!("{} is no index: a whole number from 0 on is wanted", quoted(index))))
        }
        (Some(index), _) => Ok((code, index)),
        (None, Index::Zero) => Ok((code, "0")),
        (None, Index::Exponent) => {
            Err(line.fault(format!("{name} takes the number of an exponent: task {name} 0 for the first")))
        }
        (None, Index::Direction) => {
            Err(line.fault(format!("{name} takes the number of a direction: task {name} 0 for the first")))
        }
    }
}

impl Text {
    fn add_direction(&mut self, line: &Line, lines: &mut Lines) -> Result<(), Fault> {
        if line.fields.len() > 1 {
            return Err(line.fault("direction stands alone on its line: its rows follow on lines of their own"));
        }
        let name = format!("direction {}", self.directions.len());
        self.sheet.direction.extend(lines.rows(self.sheet.order, &name)?);
        self.directions.push(line.number);
        Ok(())
    }

    fn add_task(&mut self, line: &Line) -> Result<(), Fault> {
        let (code, index) = task(line)?;
        // No sheet has 255 directions or exponents, so that an index that no byte holds is refused as this one is.
        let byte = whole(index).map_or(255, |index| index.min(255));
        self.sheet.task.extend([code as u8, byte as u8]);
        self.tasks.push(TaskLine { line: line.number, index: index.to_string() });
        Ok(())
    }

    fn add(&mut self, line: &Line, lines: &mut Lines) -> Result<(), Fault> {
        match line.fields[0] {
            "direction" => self.add_direction(line, lines),
            "exponent" => {
                self.sheet.exponent.push(exponent(line)?);
                self.exponents.push(line.number);
                Ok(())
            }
            "task" => self.add_task(line),
            "order" => Err(line.fault(format!("a second order: the first stands at line {}", self.order))),
            word => {
                let order = self.sheet.order;
                let rows = format!(": a matrix of order {order} has {}", many(order, "row"));
                let rows = if numbers::read(word).is_ok() { &rows } else { "" };
                Err(line.fault(format!("{} where direction, exponent or task is wanted{rows}", found(word))))
            }
        }
    }
}

fn utf8(bytes: &[u8]) -> Result<&str, Fault> {
    let bytes = bytes.strip_prefix(b"\xef\xbb\xbf").unwrap_or(bytes);
    str::from_utf8(bytes).map_err(|error| {
        let line = 1 + bytes[..error.valid_up_to()].iter().filter(|byte| **byte == b'\n').count();
        Fault { line, message: "this is not UTF-8: save the text as UTF-8".to_string() }
    })
}

fn line(number: usize, text: &str) -> Line<'_> {
    let text = text.split('#').next().unwrap_or("").trim_end_matches('\r');
    Line { number, fields: text.split([' ', '\t']).filter(|field| !field.is_empty()).collect() }
}

/// What a text describes. Counts and indices are not asked here.
pub fn read(bytes: &[u8]) -> Result<Text, Fault> {
    let text = utf8(bytes)?;
    let all = text.lines().enumerate().map(|(before, text)| line(before + 1, text));
    let lines: Vec<Line> = all.filter(|line| !line.fields.is_empty()).collect();
    let mut lines = Lines { lines: lines.into_iter(), last: text.lines().count().max(1) };
    let (line, order) = lines.order()?;
    let matrix = lines.rows(order, "A")?;
    let sheet = Sheet { order, matrix, ..Sheet::default() };
    let mut text = Text { sheet, order: line, directions: vec![], exponents: vec![], tasks: vec![], last: lines.last };
    while let Some(line) = lines.lines.next() {
        text.add(&line, &mut lines)?;
    }
    Ok(text)
}

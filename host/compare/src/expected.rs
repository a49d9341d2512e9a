//! What the entry must do with a sheet: document 01's lines with the numbers of the source, each ended by the smallest pivot of document 02's #103.

use crate::sheet::{Sheet, read};
use entry::ROOM;
use std::fmt::Write;
use vectors::answer::answer;
use vectors::call::{Function, Outcome, Refusal, word};

/// What is known of a task's line, without its newline.
#[derive(Clone, Debug, PartialEq, Eq)]
pub enum Line {
    Text(String),
    /// Outside the compared domain: the count of numbers, and the line that the source gives where it counts the halvings as document 01 does.
    LeftOut(usize, Option<String>),
}

/// A task's function and outcome, and its line.
pub struct Answered {
    pub function: Function,
    pub outcome: Outcome,
    pub line: Line,
}

pub enum Expected {
    /// The lent output is too short: 0 is reported and no byte is written.
    Short,
    /// The sheet is refused by one line.
    Refused(Refusal),
    Answered(Vec<Answered>),
}

impl Expected {
    /// Every line of the output, in order.
    pub fn lines(&self) -> Vec<Line> {
        match self {
            Expected::Short => Vec::new(),
            Expected::Refused(refusal) => vec![Line::Text(refused(0, *refusal))],
            Expected::Answered(tasks) => tasks.iter().map(|t| t.line.clone()).collect(),
        }
    }
}

fn refused(task: usize, Refusal(number, first, second): Refusal) -> String {
    format!("{task} no {number} {first} {second}")
}

/// The line of a task that is done.
fn done<'a>(task: usize, halvings: usize, numbers: impl Iterator<Item = &'a f64>) -> String {
    let mut line = format!("{task} ok {halvings}");
    for x in numbers {
        write!(line, " {:016x}", word(*x)).unwrap();
    }
    line
}

/// How many outputs a function's line has at order n.
fn count(function: Function, n: usize) -> usize {
    if function == Function::CondExpm { 1 } else { function.output_count() * n * n }
}

/// Task is the task's number, from 1. The smallest pivot follows the last output. The norms that follow the ratio of cond_expm are not on its line.
fn line(task: usize, function: Function, n: usize, outcome: &Outcome) -> Line {
    let count = count(function, n);
    match outcome {
        Outcome::Refused(refusal) => Line::Text(refused(task, *refusal)),
        Outcome::Done(d) => {
            let text = done(task, d.halvings, d.outputs.iter().flatten().take(count).chain([&d.smallest]));
            if d.near { Line::LeftOut(count + 1, Some(text)) } else { Line::Text(text) }
        }
        Outcome::Parted => Line::LeftOut(count + 1, None),
    }
}

/// The source is asked once for equal tasks.
fn answered(sheet: &Sheet) -> Vec<Answered> {
    let mut answers: Vec<Answered> = Vec::new();
    for (k, task) in sheet.tasks.iter().enumerate() {
        let outcome = match sheet.tasks[..k].iter().position(|earlier| earlier == task) {
            Some(earlier) => answers[earlier].outcome.clone(),
            None => answer(&sheet.call(*task)),
        };
        let line = line(k + 1, task.function(), sheet.order, &outcome);
        answers.push(Answered { function: task.function(), outcome, line });
    }
    answers
}

/// What the entry must do with these bytes and a lent output of this length.
pub fn expected(bytes: &[u8], lent: usize) -> Expected {
    if lent < ROOM {
        return Expected::Short;
    }
    match read(bytes) {
        Err(refusal) => Expected::Refused(refusal),
        Ok(sheet) => Expected::Answered(answered(&sheet)),
    }
}

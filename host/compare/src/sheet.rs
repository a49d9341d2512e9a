//! A sheet as document 01 lays it out, its bytes, and a reader of bytes that asks document 01's questions 15 and 16.

use vectors::call::{CODES, Call, FUNCTIONS, Function, Refusal};

/// A task: the code of a function, and the index of a direction or of an exponent.
#[derive(Clone, Copy, Debug, PartialEq, Eq)]
pub struct Task {
    pub code: usize,
    pub index: usize,
}

impl Task {
    pub fn function(self) -> Function {
        FUNCTIONS[self.code].0
    }
}

#[derive(Clone, Debug)]
pub struct Sheet {
    pub order: usize,
    pub matrix: Vec<f64>,
    pub directions: Vec<Vec<f64>>,
    pub exponents: Vec<f64>,
    pub tasks: Vec<Task>,
}

fn put_numbers(bytes: &mut Vec<u8>, numbers: &[f64]) {
    for x in numbers {
        bytes.extend_from_slice(&x.to_bits().to_le_bytes());
    }
}

impl Sheet {
    pub fn bytes(&self) -> Vec<u8> {
        let mut bytes = vec![self.order as u8];
        put_numbers(&mut bytes, &self.matrix);
        bytes.push(self.directions.len() as u8);
        for direction in &self.directions {
            put_numbers(&mut bytes, direction);
        }
        bytes.push(self.exponents.len() as u8);
        put_numbers(&mut bytes, &self.exponents);
        bytes.push(self.tasks.len() as u8);
        for task in &self.tasks {
            bytes.extend([task.code as u8, task.index as u8]);
        }
        bytes
    }

    /// The positions of the counts, codes and indices in the sheet's bytes.
    pub fn marks(&self) -> Vec<usize> {
        let directions = 1 + 8 * self.matrix.len();
        let exponents = directions + 1 + 8 * self.matrix.len() * self.directions.len();
        let tasks = exponents + 1 + 8 * self.exponents.len();
        let mut marks = vec![0, directions, exponents];
        marks.extend(tasks..=tasks + 2 * self.tasks.len());
        marks
    }

    /// The call that a task stands for.
    pub fn call(&self, task: Task) -> Call {
        let function = task.function();
        let direction = if function.directed() { &self.directions[task.index][..] } else { &[] };
        let exponent = if function == Function::Powm { self.exponents[task.index] } else { 0.0 };
        Call::coded(function, self.order, &self.matrix, direction, exponent)
    }
}

/// The bytes of a sheet, read from left to right. A byte's presence is asked before its range.
struct Reader<'a> {
    bytes: &'a [u8],
    at: usize,
}

impl Reader<'_> {
    fn byte(&mut self) -> Result<u8, Refusal> {
        let found = self.bytes.get(self.at).ok_or(Refusal(15, self.at, 0))?;
        self.at += 1;
        Ok(*found)
    }

    /// A byte from low up to, not including, high.
    fn within(&mut self, low: usize, high: usize) -> Result<usize, Refusal> {
        let found = usize::from(self.byte()?);
        if (low..high).contains(&found) { Ok(found) } else { Err(Refusal(16, self.at - 1, 0)) }
    }

    fn number(&mut self) -> Result<f64, Refusal> {
        let mut bytes = [0; 8];
        for byte in &mut bytes {
            *byte = self.byte()?;
        }
        Ok(f64::from_le_bytes(bytes))
    }

    fn numbers(&mut self, count: usize) -> Result<Vec<f64>, Refusal> {
        (0..count).map(|_| self.number()).collect()
    }

    fn task(&mut self, directions: usize, exponents: usize) -> Result<Task, Refusal> {
        let code = self.within(0, CODES)?;
        let indices = match FUNCTIONS[code].0 {
            Function::Powm => exponents,
            f if f.directed() => directions,
            _ => 1,
        };
        Ok(Task { code, index: self.within(0, indices)? })
    }
}

/// The sheet that the bytes hold, or refusal 15 or 16.
pub fn read(bytes: &[u8]) -> Result<Sheet, Refusal> {
    let mut r = Reader { bytes, at: 0 };
    let order = r.within(1, 9)?;
    let matrix = r.numbers(order * order)?;
    let count = r.within(0, 9)?;
    let directions: Vec<Vec<f64>> = (0..count).map(|_| r.numbers(order * order)).collect::<Result<_, _>>()?;
    let count = r.within(0, 9)?;
    let exponents = r.numbers(count)?;
    let count = r.within(1, 17)?;
    let tasks = (0..count).map(|_| r.task(directions.len(), exponents.len())).collect::<Result<_, _>>()?;
    if r.at < bytes.len() {
        return Err(Refusal(15, r.at, 0));
    }
    Ok(Sheet { order, matrix, directions, exponents, tasks })
}

//! The source's side: its calls alone, and a whole sheet read, run by the source and written as the entry does. The source does not report the smallest
//! pivot that ends a line: it is found beforehand, by other runs, and only written here.

use compare::sheet::{Sheet, Task, read};
use std::hint::black_box;
use vectors::answer::answer;
use vectors::call::{Function::*, word};
use vectors::norms::{block, even_direction, halvings, one_norm};
use vectors::sylvester::frechet_sqrtm_sylvester;

/// The outputs of a task, one after the other.
fn outputs(s: &Sheet, task: Task) -> Vec<f64> {
    let (n, a) = (s.order, black_box(&s.matrix[..]));
    let e = || &s.directions[task.index][..];
    let both = |(mut first, second): (Vec<f64>, Vec<f64>)| {
        first.extend(second);
        first
    };
    match task.function() {
        Expm => oracle::expm(n, n, a),
        Logm => oracle::logm(n, n, a),
        Sqrtm => oracle::sqrtm(n, n, a),
        Powm => oracle::powm(n, n, a, s.exponents[task.index]),
        Cosm => oracle::cosm(n, n, a),
        Sinm => oracle::sinm(n, n, a),
        FrechetExpm => oracle::frechet_expm(n, n, a, n, n, e()).map(both),
        FrechetLogm => oracle::frechet_logm(n, n, a, n, n, e()).map(both),
        FrechetSqrtm => oracle::frechet_sqrtm(n, n, a, n, n, e()).map(both),
        CondExpm => oracle::cond_expm(n, n, a).map(|ratio| vec![ratio]),
        FrechetSqrtmSylvester => frechet_sqrtm_sylvester(n, a, e()).map(both),
        other => panic!("{} has no code", other.name()),
    }
    .expect("the sheets that are timed are answered")
}

/// The calls of a sheet's tasks, and nothing else.
pub fn calls(s: &Sheet) {
    for task in &s.tasks {
        black_box(outputs(s, *task));
    }
}

/// The halvings that stand on a task's line.
fn reported(s: &Sheet, task: Task) -> usize {
    let (n, a) = (s.order, &s.matrix[..]);
    match task.function() {
        Expm => halvings(one_norm(n, a)),
        Cosm | Sinm => halvings(one_norm(n, a) + 1.0),
        FrechetExpm => halvings(one_norm(2 * n, &block(n, a, &s.directions[task.index]))),
        CondExpm => halvings(one_norm(2 * n, &block(n, a, &even_direction(n)))),
        _ => 0,
    }
}

struct Output<'a> {
    bytes: &'a mut [u8],
    at: usize,
}

impl Output<'_> {
    fn put(&mut self, text: &[u8]) {
        self.bytes[self.at..self.at + text.len()].copy_from_slice(text);
        self.at += text.len();
    }

    /// A space and 16 digits.
    fn put_number(&mut self, x: f64) {
        let mut text = [b' '; 17];
        let bits = word(x);
        for (k, digit) in text[1..].iter_mut().enumerate() {
            *digit = b"0123456789abcdef"[(bits >> (60 - 4 * k) & 15) as usize];
        }
        self.put(&text);
    }
}

/// The smallest pivot of each task.
pub fn smallest(s: &Sheet) -> Vec<f64> {
    let reported = |task: &Task| answer(&s.call(*task)).smallest();
    s.tasks.iter().map(|task| reported(task).expect("the sheets that are timed are compared")).collect()
}

/// What the entry does, for a sheet whose tasks are all answered and have these smallest pivots.
pub fn sheet(bytes: &[u8], smallest: &[f64], output: &mut [u8]) -> usize {
    let s = read(bytes).expect("the sheets that are timed are accepted");
    let mut out = Output { bytes: output, at: 0 };
    for (k, task) in s.tasks.iter().enumerate() {
        let numbers = outputs(&s, *task);
        out.put(format!("{} ok {}", k + 1, reported(&s, *task)).as_bytes());
        numbers.iter().chain([&smallest[k]]).for_each(|x| out.put_number(*x));
        out.put(b"\n");
    }
    out.at
}

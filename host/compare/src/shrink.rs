//! Makes a sheet that shows a fault smaller, as long as it still shows one.

use crate::sheet::{Sheet, Task, read};

/// How many smaller sheets are tried at most.
const TRIES: usize = 20_000;

/// The numbers of a matrix without row and column k.
fn without(n: usize, a: &[f64], k: usize) -> Vec<f64> {
    (0..n * n).filter(|i| i / n != k && i % n != k).map(|i| a[i]).collect()
}

/// Without the direction or exponent of this index, where no task names it; later ones move down.
fn moved(tasks: &[Task], index: usize, named: impl Fn(Task) -> bool) -> Option<Vec<Task>> {
    if tasks.iter().any(|t| named(*t) && t.index == index) {
        return None;
    }
    let down = |t: &Task| Task { index: t.index - usize::from(named(*t) && t.index > index), ..*t };
    Some(tasks.iter().map(down).collect())
}

fn fewer_tasks(s: &Sheet, smaller: &mut Vec<Sheet>) {
    if s.tasks.len() < 2 {
        return;
    }
    smaller.extend(s.tasks.iter().map(|t| Sheet { tasks: vec![*t], ..s.clone() }));
    for k in 0..s.tasks.len() {
        let mut less = s.clone();
        less.tasks.remove(k);
        smaller.push(less);
    }
}

fn fewer_companions(s: &Sheet, smaller: &mut Vec<Sheet>) {
    for k in 0..s.directions.len() {
        if let Some(tasks) = moved(&s.tasks, k, |t| t.function().directed()) {
            let mut less = Sheet { tasks, ..s.clone() };
            less.directions.remove(k);
            smaller.push(less);
        }
    }
    for k in 0..s.exponents.len() {
        if let Some(tasks) = moved(&s.tasks, k, |t| t.code == 3) {
            let mut less = Sheet { tasks, ..s.clone() };
            less.exponents.remove(k);
            smaller.push(less);
        }
    }
}

fn lower_orders(s: &Sheet, smaller: &mut Vec<Sheet>) {
    if s.order < 2 {
        return;
    }
    for k in 0..s.order {
        let mut less = s.clone();
        less.order -= 1;
        less.matrix = without(s.order, &s.matrix, k);
        less.directions = s.directions.iter().map(|e| without(s.order, e, k)).collect();
        smaller.push(less);
    }
}

fn more_zeros(s: &Sheet, smaller: &mut Vec<Sheet>) {
    for k in (0..s.matrix.len()).filter(|k| s.matrix[*k].to_bits() != 0) {
        let mut less = s.clone();
        less.matrix[k] = 0.0;
        smaller.push(less);
    }
    for (d, direction) in s.directions.iter().enumerate() {
        for k in (0..direction.len()).filter(|k| direction[*k].to_bits() != 0) {
            let mut less = s.clone();
            less.directions[d][k] = 0.0;
            smaller.push(less);
        }
    }
}

/// Bytes that no sheet is read from: cut, or without one byte.
fn fewer_bytes(bytes: &[u8]) -> Vec<Vec<u8>> {
    let mut smaller: Vec<Vec<u8>> = [0, bytes.len() / 2].iter().map(|k| bytes[..*k].to_vec()).collect();
    for k in (0..bytes.len()).rev() {
        let mut less = bytes.to_vec();
        less.remove(k);
        smaller.push(less);
    }
    smaller.retain(|less| less.len() < bytes.len());
    smaller
}

/// Smaller sheets, those that leave out most first.
fn smaller(bytes: &[u8]) -> Vec<Vec<u8>> {
    let Ok(sheet) = read(bytes) else { return fewer_bytes(bytes) };
    let mut smaller = Vec::new();
    fewer_tasks(&sheet, &mut smaller);
    fewer_companions(&sheet, &mut smaller);
    lower_orders(&sheet, &mut smaller);
    more_zeros(&sheet, &mut smaller);
    smaller.iter().map(Sheet::bytes).collect()
}

/// A sheet that shows a fault and of which no smaller one that is tried does.
pub fn shrink(bytes: &[u8], shows: impl Fn(&[u8]) -> bool) -> Vec<u8> {
    let mut least = bytes.to_vec();
    let mut tries = 0;
    'smaller: loop {
        for less in smaller(&least) {
            tries += 1;
            if tries > TRIES {
                return least;
            }
            if shows(&less) {
                least = less;
                continue 'smaller;
            }
        }
        return least;
    }
}

//! Sheets to try, made from a seed and a number: good ones, damaged copies, and lent outputs that are too short.

use crate::sheet::{Sheet, Task};
use entry::ROOM;
use vectors::call::{CODES, Function};
use vectors::cases::{direction, exponent};
use vectors::matrices::{matrix, spoil};
use vectors::random::Random;

/// The bytes to hand over, and the length of the lent output.
pub struct Trial {
    pub bytes: Vec<u8>,
    pub lent: usize,
}

/// Exponents that document 01 or the comparison names, beside those of vectors::cases.
const EXPONENTS: [f64; 13] =
    [0.0, 1.0, -1.0, 13.0, -7.0, 2.5, 0.5, 1e-15, 1e19, -1e19, f64::NAN, f64::INFINITY, f64::NEG_INFINITY];

/// The codes of tasks, and those of the square root and its derivatives.
const ALL: [usize; CODES] = [0, 1, 2, 3, 4, 5, 6, 7, 8, 9, 10];
const ROOTS: [usize; 3] = [2, 8, 10];

fn task(codes: &[usize], directions: usize, exponents: usize, r: &mut Random) -> Task {
    loop {
        let mut task = Task { code: r.pick(codes), index: 0 };
        let indices = match task.function() {
            Function::Powm => exponents,
            f if f.directed() => directions,
            _ => 1,
        };
        if indices > 0 {
            task.index = r.below(indices);
            return task;
        }
    }
}

/// A sheet that is accepted.
pub fn sheet(r: &mut Random) -> Sheet {
    let n = 1 + r.below(8);
    let matrix = matrix(n, r);
    let mut directions = Vec::new();
    for _ in 0..r.below(9) {
        let mut e = direction(n, r);
        spoil(&mut e, 12, r);
        directions.push(e);
    }
    let mut exponents = Vec::new();
    for _ in 0..r.below(9) {
        exponents.push(if r.once_in(2) { r.pick(&EXPONENTS) } else { exponent(r) });
    }
    let count = 1 + r.below(16);
    let codes: &[usize] = if n == 1 && r.once_in(2) { &ROOTS } else { &ALL };
    let tasks = (0..count).map(|_| task(codes, directions.len(), exponents.len(), r)).collect();
    Sheet { order: n, matrix, directions, exponents, tasks }
}

/// A place in the sheet: half of the time that of a count, a code or an index.
fn place(sheet: &Sheet, length: usize, r: &mut Random) -> usize {
    if r.once_in(2) { r.pick(&sheet.marks()) } else { r.below(length) }
}

/// Another code for one of the tasks: the last one, which may have no direction to name, or the next number, which is none.
fn recode(sheet: &Sheet, bytes: &mut [u8], r: &mut Random) {
    let at = bytes.len() - 2 * (1 + r.below(sheet.tasks.len()));
    let last = CODES as u8 - 1;
    bytes[at] = if sheet.directions.is_empty() { last } else { r.pick(&[last, last + 1]) };
}

/// The sheet's bytes, cut, with a byte added, taken out or changed, with another code, or with many bytes added.
fn damaged(sheet: &Sheet, r: &mut Random) -> Vec<u8> {
    let mut bytes = sheet.bytes();
    let at = place(sheet, bytes.len(), r);
    match r.below(9) {
        0 => bytes.truncate(at),
        1 => bytes.truncate(bytes.len() - 1),
        2 => bytes.push(r.below(256) as u8),
        3 => bytes.insert(at, r.below(256) as u8),
        4 => drop(bytes.remove(at)),
        5 => bytes.extend((0..r.below(8192)).map(|_| r.below(256) as u8)),
        6..=7 => recode(sheet, &mut bytes, r),
        _ => bytes[at] = if r.once_in(2) { r.below(20) as u8 } else { r.below(256) as u8 },
    }
    bytes
}

/// Lengths of lent outputs: too short, at the limit that stood before #103 and beside the one that stands, and longer.
const LENT: [usize; 8] = [0, 1, 17_750, 35_000, ROOM - 1, ROOM + 1, ROOM + 64, 2 * ROOM];

/// What a trial is made from: it depends on the seed and the trial's number only, so that one can be run again alone.
pub fn random(seed: u64, number: u64) -> Random {
    Random::new(Random::new(seed).bits() ^ number.wrapping_mul(0x9e37_79b9_7f4a_7c15))
}

pub fn trial(seed: u64, number: u64) -> Trial {
    let mut r = random(seed, number);
    let sheet = sheet(&mut r);
    let bytes = if r.once_in(5) { damaged(&sheet, &mut r) } else { sheet.bytes() };
    let lent = if r.once_in(10) { r.pick(&LENT) } else { ROOM };
    Trial { bytes, lent }
}

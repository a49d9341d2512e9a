//! Sections to try, made from a seed and a number: good ones, damaged ones, and lent outputs of several lengths.

use super::expected::{indices, length};
use super::sections::Owned;
use crate::make::random;
use entry::{CODES, SHEET_LENGTH};
use vectors::random::Random;

/// The sections to hand over, and the length of the lent output.
#[derive(Clone)]
pub struct Trial {
    pub sections: Owned,
    pub room: usize,
}

const SIGN: u64 = 1 << 63;
const INFINITY: u64 = 0x7ff << 52;
const QUIET: u64 = 1 << 51;

/// The bits of a number: any bits, quiet and signalling NaNs with payloads, infinities, zeros, subnormal numbers and ordinary ones.
fn number(r: &mut Random) -> u64 {
    let sign = if r.once_in(2) { SIGN } else { 0 };
    let payload = (r.bits() >> 13).max(1);
    let magnitude = match r.below(8) {
        0 => r.bits() & !SIGN,
        1 => INFINITY | QUIET | payload,
        2 => INFINITY | payload,
        3 => INFINITY,
        4 => 0,
        5 => payload,
        _ => r.normal().abs().to_bits(),
    };
    sign | magnitude
}

fn numbers(count: usize, r: &mut Random) -> Vec<u64> {
    (0..count).map(|_| number(r)).collect()
}

/// A code that has an index, and one of its indices.
fn task(s: &Owned, r: &mut Random) -> [u8; 2] {
    loop {
        let code = r.below(CODES.len()) as u8;
        let indices = indices(&s.lent(), code);
        if indices > 0 {
            return [code, r.below(indices) as u8];
        }
    }
}

/// Sections that are written.
fn good(r: &mut Random) -> Owned {
    let (order, directions, exponents, tasks) = (1 + r.below(8), r.below(9), r.below(9), 1 + r.below(16));
    let matrix = numbers(order * order, r);
    let direction = numbers(directions * order * order, r);
    let exponent = numbers(exponents, r);
    let mut s = Owned { order, matrix, directions, direction, exponents, exponent, tasks, task: vec![] };
    s.task = (0..tasks).flat_map(|_| task(&s, r)).collect();
    s
}

/// Another order or count: mostly out of range, some of them in range if only their lowest bits were looked at.
fn other_count(count: usize, r: &mut Random) -> usize {
    match r.below(7) {
        0 => r.below(20),
        1 => r.below(301),
        2 => r.pick(&[0, 9, 17, 255, 256, 257, 300]),
        3 => count.wrapping_add(256 << r.below(48)),
        4 => r.bits() as usize,
        5 => usize::MAX - r.below(3),
        _ => 1 << r.below(64),
    }
}

/// Another byte for one of the tasks, often the last byte: a code or an index at the edge of its range, or any byte.
fn spoil_task(s: &mut Owned, r: &mut Random) {
    let Some(last) = s.task.len().checked_sub(1) else { return };
    let at = if r.once_in(3) { last } else { r.below(last + 1) };
    let edges = [CODES.len() as u8, CODES.len() as u8 + 1, 1, 255, s.directions as u8, s.exponents as u8];
    s.task[at] = if r.once_in(4) { r.below(256) as u8 } else { r.pick(&edges) };
}

/// A slice of another length: empty, cut, or with members added.
fn resize<T>(slice: &mut Vec<T>, r: &mut Random, member: impl Fn(&mut Random) -> T) {
    match r.below(6) {
        0 => slice.clear(),
        1 => slice.truncate(r.below(slice.len() + 1)),
        2 => drop(slice.pop()),
        3 => slice.push(member(r)),
        4 => slice.extend((0..2).map(|_| member(r))),
        _ => slice.extend((0..1 + r.below(80)).map(|_| member(r))),
    }
}

/// Tasks that end early, also after a code, with another byte for one of those that stay.
fn cut_tasks(s: &mut Owned, r: &mut Random) {
    s.task.truncate(r.below(s.task.len() + 1));
    spoil_task(s, r);
}

/// A byte of a task that is added: mostly one that would be in range.
fn task_byte(r: &mut Random) -> u8 {
    if r.once_in(4) { r.below(256) as u8 } else { r.below(3) as u8 }
}

/// Another length of the lent output: too short for the most part.
fn other_room(room: usize, r: &mut Random) -> usize {
    match r.below(5) {
        0 => 0,
        1 => 1,
        2 => room + 1,
        3 => r.below(room + 1),
        _ => room.saturating_sub(1),
    }
}

fn damage(t: &mut Trial, r: &mut Random) {
    let s = &mut t.sections;
    match r.below(15) {
        0 => s.order = other_count(s.order, r),
        1 => s.directions = other_count(s.directions, r),
        2 => s.exponents = other_count(s.exponents, r),
        3 => s.tasks = other_count(s.tasks, r),
        4..=6 => spoil_task(s, r),
        7 => resize(&mut s.matrix, r, number),
        8 => resize(&mut s.direction, r, number),
        9 => resize(&mut s.exponent, r, number),
        10..=11 => resize(&mut s.task, r, task_byte),
        12 => cut_tasks(s, r),
        _ => t.room = other_room(t.room, r),
    }
}

/// A lent output that is long enough for a sheet of this length.
fn room(length: usize, r: &mut Random) -> usize {
    match r.below(4) {
        0 => length + 1,
        1 => length + r.below(300),
        2 => r.pick(&[SHEET_LENGTH, 2 * SHEET_LENGTH]),
        _ => length,
    }
}

/// A trial depends on the seed and its number only. Two in three are damaged, some of them several times.
pub fn trial(seed: u64, number: u64) -> Trial {
    let mut r = random(seed, number);
    let sections = good(&mut r);
    let room = room(length(&sections.lent()), &mut r);
    let mut t = Trial { sections, room };
    if !r.once_in(3) {
        // The output of a damaged trial is just long enough, so that one byte less is one too few.
        t.room = length(&t.sections.lent());
        for _ in 0..r.pick(&[1, 1, 2, 3]) {
            damage(&mut t, &mut r);
        }
    }
    t
}

//! Calls the writer, and checks what it wrote and what it reported.

use super::expected::Outcome;
use entry::{Sections, Write};

/// Bytes before and after the lent output, which the writer must not touch.
const GUARD: usize = 64;

/// The output with its guards, the three numbers of a refusal with one on each side, and the length reported.
struct Memory {
    bytes: Vec<u8>,
    why: [u64; 5],
    reported: usize,
}

/// What is lent before a call. Neighbours differ. The patterns of two masks that are each other's complement differ in every bit.
fn lent(room: usize, mask: u8) -> Memory {
    let bytes = (0..room + 2 * GUARD).map(|at| (at % 251) as u8 ^ mask).collect();
    let why = [1, 2, 3, 4, 5].map(|k: u64| (k * 0x0123_4567_89ab_cdef) ^ u64::from_ne_bytes([mask; 8]));
    Memory { bytes, why, reported: 0 }
}

fn given(write: Write, s: &Sections, room: usize, mask: u8) -> Memory {
    let mut m = lent(room, mask);
    let why = (&mut m.why[1..4]).try_into().expect("three numbers");
    m.reported = write(s, &mut m.bytes[GUARD..GUARD + room], why);
    m
}

fn wanted(outcome: &Outcome, room: usize, mask: u8) -> Memory {
    let mut m = lent(room, mask);
    let why = match outcome {
        Ok(bytes) => {
            m.bytes[GUARD..GUARD + bytes.len()].copy_from_slice(bytes);
            m.reported = bytes.len();
            [0, 0, 0]
        }
        Err(refused) => refused.why(),
    };
    m.why[1..4].copy_from_slice(&why);
    m
}

/// What a call reports, as text.
fn report(m: &Memory) -> String {
    format!("{}, why {:?}", m.reported, &m.why[1..4])
}

/// What differs between a call and what is wanted of it, if anything.
fn difference(given: &Memory, wanted: &Memory) -> Option<String> {
    if (given.reported, given.why) != (wanted.reported, wanted.why) {
        let beside =
            if [given.why[0], given.why[4]] != [wanted.why[0], wanted.why[4]] { "; a number beside why" } else { "" };
        return Some(format!("  wanted {}\n  given  {}{beside}", report(wanted), report(given)));
    }
    let at = (0..given.bytes.len()).find(|at| given.bytes[*at] != wanted.bytes[*at])?;
    let place = at as isize - GUARD as isize;
    Some(format!("byte {place} of the output\n  wanted {:02x}\n  given  {:02x}", wanted.bytes[at], given.bytes[at]))
}

/// Calls the writer twice, on outputs that differ in every bit, so that a byte that is written as it was is found, too. The outcome's bytes have room.
pub fn check(write: Write, s: &Sections, room: usize, outcome: &Outcome) -> Result<(), String> {
    for mask in [0x00, 0xff] {
        if let Some(fault) = difference(&given(write, s, room, mask), &wanted(outcome, room, mask)) {
            return Err(fault);
        }
    }
    Ok(())
}

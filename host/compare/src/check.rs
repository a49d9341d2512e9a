//! Calls the entry, and checks what it wrote and what it reported.

use crate::expected::Line;
use entry::Run;

/// Bytes before and after the lent output, which the entry must not touch either.
const GUARD: usize = 64;

/// What stands at a place of the output before the call. Neighbours differ, and no line has such a byte.
fn lent_byte(at: usize) -> u8 {
    0x80 | (at % 127) as u8
}

/// The bytes that the entry wrote into a lent output of this length; or what it did to bytes that are not its own, or a report that cannot be.
pub fn call(entry: Run, bytes: &[u8], lent: usize) -> Result<Vec<u8>, String> {
    let mut memory: Vec<u8> = (0..lent + 2 * GUARD).map(lent_byte).collect();
    let reported = entry(bytes, &mut memory[GUARD..GUARD + lent]);
    if reported > lent {
        return Err(format!("{reported} bytes reported, {lent} lent"));
    }
    let kept = |at: &usize| !(GUARD..GUARD + reported).contains(at);
    match (0..memory.len()).filter(kept).find(|at| memory[*at] != lent_byte(*at)) {
        Some(at) => {
            Err(format!("{reported} bytes reported, but the byte at {} is changed", at as isize - GUARD as isize))
        }
        None => Ok(memory[GUARD..GUARD + reported].to_vec()),
    }
}

/// A line that is not compared has the task's number, `ok`, halvings and its count of numbers.
fn is_shaped(line: &str, task: usize, count: usize) -> bool {
    let fields: Vec<&str> = line.split(' ').collect();
    let digit = |c: char| c.is_ascii_digit() || ('a'..='f').contains(&c);
    fields.len() == count + 3
        && fields[0] == task.to_string()
        && fields[1] == "ok"
        && fields[2].parse::<usize>().is_ok_and(|s| s.to_string() == fields[2])
        && fields[3..].iter().all(|x| x.len() == 16 && x.chars().all(digit))
}

/// Calls the entry and compares what it wrote with the lines of an output of this length. Gives how many of the lines that are left out are the source's all
/// the same, or what the entry did otherwise than expected.
pub fn check(entry: Run, bytes: &[u8], lent: usize, lines: &[Line]) -> Result<usize, String> {
    let written = call(entry, bytes, lent)?;
    let text = String::from_utf8_lossy(&written);
    let mut found = text.split_inclusive('\n');
    let mut agreeing = 0;
    for (k, line) in lines.iter().enumerate() {
        let given = found.next().unwrap_or("");
        let whole = given.strip_suffix('\n');
        let right = match line {
            Line::Text(wanted) => whole == Some(wanted),
            Line::LeftOut(count, source) => {
                agreeing += usize::from(source.is_some() && whole == source.as_deref());
                whole.is_some_and(|x| is_shaped(x, k + 1, *count))
            }
        };
        if !right {
            return Err(format!("line {}\n  wanted {}\n  given  {given:?}", k + 1, described(line)));
        }
    }
    found.next().map_or(Ok(agreeing), |extra| Err(format!("after the last line: {extra:?}")))
}

fn described(line: &Line) -> String {
    match line {
        Line::Text(wanted) => format!("{:?}", format!("{wanted}\n")),
        Line::LeftOut(count, _) => format!("ok, halvings and {count} numbers"),
    }
}

//! Stand-ins for the port's entries: a writer by the layout of sheets, and a runner that knows the lines of the sample sheets.

use entry::{CODES, Index, Port, Sections};
use std::fs;
use std::ops::RangeInclusive;
use std::path::PathBuf;

pub fn samples() -> PathBuf {
    PathBuf::from(concat!(env!("CARGO_MANIFEST_DIR"), "/../../samples"))
}

/// Name, bytes and lines of every sample sheet.
pub fn sample_sheets() -> Vec<(String, Vec<u8>, String)> {
    let mut sheets = Vec::new();
    for file in fs::read_dir(samples()).unwrap() {
        let path = file.unwrap().path();
        if path.extension().is_some_and(|extension| extension == "sheet") {
            let lines = fs::read_to_string(path.with_extension("lines")).unwrap();
            sheets.push((path.file_stem().unwrap().to_str().unwrap().to_string(), fs::read(&path).unwrap(), lines));
        }
    }
    sheets
}

fn asked(bytes: &mut Vec<u8>, value: usize, range: RangeInclusive<usize>) -> Result<(), [u64; 3]> {
    if !range.contains(&value) {
        return Err([16, bytes.len() as u64, 0]);
    }
    bytes.push(value as u8);
    Ok(())
}

fn put(bytes: &mut Vec<u8>, numbers: &[u64]) {
    bytes.extend(numbers.iter().flat_map(|bits| bits.to_le_bytes()));
}

fn written(s: &Sections) -> Result<Vec<u8>, [u64; 3]> {
    assert_eq!(s.matrix.len(), s.order * s.order);
    assert_eq!(s.direction.len(), s.directions * s.order * s.order);
    assert_eq!((s.exponent.len(), s.task.len()), (s.exponents, 2 * s.tasks));
    let mut bytes = Vec::new();
    asked(&mut bytes, s.order, 1..=8)?;
    put(&mut bytes, s.matrix);
    asked(&mut bytes, s.directions, 0..=8)?;
    put(&mut bytes, s.direction);
    asked(&mut bytes, s.exponents, 0..=8)?;
    put(&mut bytes, s.exponent);
    asked(&mut bytes, s.tasks, 1..=16)?;
    for task in s.task.chunks(2) {
        asked(&mut bytes, task[0].into(), 0..=CODES.len() - 1)?;
        let indices = match CODES[usize::from(task[0])].1 {
            Index::Zero => 1,
            Index::Exponent => s.exponents,
            Index::Direction => s.directions,
        };
        if usize::from(task[1]) >= indices {
            return Err([16, bytes.len() as u64, 0]);
        }
        bytes.push(task[1]);
    }
    Ok(bytes)
}

fn write(sections: &Sections, output: &mut [u8], why: &mut [u64; 3]) -> usize {
    match written(sections) {
        Ok(bytes) => {
            output[..bytes.len()].copy_from_slice(&bytes);
            bytes.len()
        }
        Err(refusal) => {
            *why = refusal;
            0
        }
    }
}

fn run(sheet: &[u8], output: &mut [u8]) -> usize {
    let (_, _, lines) = sample_sheets().into_iter().find(|sample| sample.1 == sheet).expect("a sample sheet");
    output[..lines.len()].copy_from_slice(lines.as_bytes());
    lines.len()
}

pub fn port() -> Port {
    Port { run: &run, write: &write }
}

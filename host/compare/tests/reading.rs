//! Document 01's sheet: its last line, and questions 15 and 16.

use compare::expected::{Expected, Line, expected};
use compare::make::sheet;
use compare::samples::samples;
use compare::sheet::read;
use entry::ROOM;
use std::path::Path;
use vectors::call::Refusal;
use vectors::random::Random;

fn sample(name: &str) -> Vec<u8> {
    samples().into_iter().find(|(n, _)| *n == name).unwrap().1
}

/// The refusal of these bytes: its number and its position.
fn refused(bytes: &[u8]) -> (usize, usize) {
    let Err(Refusal(number, position, 0)) = read(bytes) else { panic!("{bytes:?}") };
    (number, position)
}

fn changed(at: usize, byte: u8) -> Vec<u8> {
    let mut bytes = sample("shear");
    bytes[at] = byte;
    bytes
}

#[test]
fn the_46_bytes() {
    let bytes = sample("shear");
    assert_eq!(bytes.len(), 46);
    let wanted = "1 ok 0 3ff0000000000000 4008000000000000 0000000000000000 3ff0000000000000 7ff0000000000000";
    assert_eq!(expected(&bytes, ROOM).lines(), [Line::Text(wanted.to_string())]);
    assert!(matches!(expected(&bytes, ROOM - 1), Expected::Short));
}

#[test]
fn cut_and_longer_sheets() {
    let bytes = sample("shear");
    for length in 0..46 {
        assert_eq!(refused(&bytes[..length]), (15, length));
    }
    assert_eq!(refused(&[&bytes[..], &[0, 0]].concat()), (15, 46));
    assert_eq!(expected(&bytes[..45], ROOM).lines(), [Line::Text("0 no 15 45 0".to_string())]);
}

/// The counts stand at 0, 33, 34 and 43, the code at 44, the index at 45.
#[test]
fn bytes_out_of_range() {
    for (at, byte) in [(0, 0), (0, 9), (33, 9), (34, 9), (43, 0), (43, 17), (44, 11), (44, 255), (45, 1)] {
        assert_eq!(refused(&changed(at, byte)), (16, at));
    }
    // Codes that name a direction, of which there is none, and expm with an index that is not 0.
    for code in [6, 7, 8, 10] {
        assert_eq!(refused(&changed(44, code)), (16, 45));
    }
    let mut expm = changed(44, 0);
    assert!(read(&expm).is_ok());
    expm[45] = 1;
    assert_eq!(refused(&expm), (16, 45));
    // A second task is wanted and missing.
    assert_eq!(refused(&changed(43, 2)), (15, 46));
    // A code out of range before the index is missing, and before a byte too many.
    assert_eq!(refused(&changed(44, 11)[..45]), (16, 44));
    assert_eq!(refused(&[&changed(44, 11)[..], &[0]].concat()), (16, 44));
}

#[test]
fn sheets_are_read_back() {
    let mut r = Random::new(5);
    for _ in 0..500 {
        let made = sheet(&mut r);
        let bytes = made.bytes();
        let found = read(&bytes).unwrap();
        assert_eq!(found.bytes(), bytes);
        assert_eq!((found.order, found.tasks), (made.order, made.tasks));
    }
}

/// The longest sheet, and its output: a line has at most 2,202 bytes, so that 16 have at most 35,232. Here the halvings have one digit, and nine of the
/// task numbers.
#[test]
fn the_longest() {
    let bytes = sample("longest");
    assert_eq!(bytes.len(), 4708);
    let length = |line: &Line| if let Line::Text(text) = line { text.len() + 1 } else { 0 };
    let written: usize = expected(&bytes, ROOM).lines().iter().map(length).sum();
    assert_eq!(written, 16 * 2202 - 16 - 9);
}

/// The index of code 10 names one of the sheet's directions.
#[test]
fn directions_of_code_10() {
    let bytes = sample("nonsymmetric");
    let last = bytes.len() - 1;
    assert_eq!((bytes[last - 1], bytes[last]), (10, 0));
    assert!(read(&bytes).is_ok());
    assert_eq!(refused(&[&bytes[..last], &[1]].concat()), (16, last));
    // A second direction, in front of the first.
    let mut two = bytes.clone();
    two[33] = 2;
    two.splice(34..34, [0; 32]);
    let last = two.len() - 1;
    two[last] = 1;
    assert_eq!(read(&two).map(|sheet| sheet.call(sheet.tasks[1]).companion), Ok(vec![0.5, 0.0, 1.0, 0.25]));
}

/// The files in samples/ are those that `compare samples` writes.
#[test]
fn the_kept_samples() {
    let directory = Path::new(env!("CARGO_MANIFEST_DIR")).join("../../samples");
    for (name, bytes) in samples() {
        assert_eq!(std::fs::read(directory.join(format!("{name}.sheet"))).unwrap(), bytes, "{name}");
        let kept = std::fs::read_to_string(directory.join(format!("{name}.lines"))).unwrap();
        for (line, wanted) in expected(&bytes, ROOM).lines().iter().zip(kept.lines()) {
            let (Line::Text(text) | Line::LeftOut(_, Some(text))) = line else { panic!("{name}") };
            assert_eq!(text, wanted, "{name}");
        }
    }
}

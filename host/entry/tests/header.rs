//! The header for C has the codes and lengths of this package.

use entry::{CODES, ROOM, SHEET_LENGTH};

const HEADER: &str = include_str!("../../include/axis.h");

/// The lines of the header that give a code its number, without what follows it.
fn codes() -> Vec<&'static str> {
    HEADER.lines().map(|line| line.trim().trim_end_matches(',')).filter(|line| line.contains(" = ")).collect()
}

#[test]
fn the_codes_are_the_same() {
    let name = |(code, (name, _)): (usize, &(&str, _))| format!("AXIS_{} = {code}", name.to_uppercase());
    assert_eq!(codes(), CODES.iter().enumerate().map(name).collect::<Vec<_>>());
}

#[test]
fn the_lengths_are_the_same() {
    for (name, length) in [("OUTPUT", ROOM), ("SHEET", SHEET_LENGTH)] {
        assert!(HEADER.lines().any(|line| line == format!("#define AXIS_{name}_LENGTH {length}")), "{name}");
    }
}

//! What `sheet --help` prints.

use entry::{CODES, Index};

pub const USAGE: &str = "usage: sheet write TEXT SHEET | sheet show SHEET | sheet run SHEET | sheet --help";

const COMMANDS: &str = "\
sheet write TEXT SHEET    makes the sheet that a text describes
sheet show SHEET          prints a sheet as such a text
sheet run SHEET           runs a sheet and prints each task's line, and below it the same in words

- stands for standard input or standard output.

The text has one thing a line. # starts a comment, blank lines are skipped, words are separated by blanks or tabs.

    order 2               the order N, 1 to 8, comes first,
    1 1                   and then N rows of N numbers: A
    0 1
    direction             N rows of N numbers follow; at most 8 directions
    0.5 0
    0 2e-3
    exponent 3            at most 8 exponents
    task expm             1 to 16 tasks
    task powm 0           with exponent 0
    task frechet_expm 0   in direction 0

After A come directions, exponents and tasks in any order. Directions and exponents are numbered from 0, each in their
own order. A number is a decimal with a point, such as -1.5 or 2e-3, which is rounded to the nearest 64-bit float, or
inf, -inf, nan, or the 64 bits of the float as 0x and exactly 16 hexadecimal digits.
";

const STATUS: &str = "\
An error in a text is reported as TEXT:LINE: and what is wrong, and then nothing is written.

Exit status: 0 done; 1 the text has an error, or the sheet or one of its tasks is refused; 2 wrong use, a file that
cannot be read or written, or built without the port's static library.
";

/// The names of the functions whose index names this.
fn names(kind: Index) -> String {
    let names: Vec<&str> = CODES.iter().filter(|code| code.1 == kind).map(|code| code.0).collect();
    names.join(", ")
}

pub fn help() -> String {
    let (none, exponent, direction) = (names(Index::Zero), names(Index::Exponent), names(Index::Direction));
    format!(
        "{COMMANDS}\nFunctions:\n    without an index: {none}\n    with an exponent: {exponent}\n    with a direction: {direction}\n\n{STATUS}"
    )
}

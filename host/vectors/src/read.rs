//! Reads the lines that call.rs writes.

use crate::call::{Call, Done, Function, Outcome, Refusal};
use crate::width::Width;
use std::str::Split;

/// The fields of a line that are left. A line that is not of the form ends the program.
struct Fields<'a>(Split<'a, char>);

impl<'a> Fields<'a> {
    fn next(&mut self) -> &'a str {
        self.0.next().expect("a field")
    }

    fn bits(&mut self) -> u64 {
        u64::from_str_radix(self.next(), 16).expect("hexadecimal digits")
    }

    fn count(&mut self) -> usize {
        self.bits() as usize
    }

    fn is_yes(&mut self) -> bool {
        match self.next() {
            "1" => true,
            "0" => false,
            other => panic!("{other} is neither 1 nor 0"),
        }
    }

    fn numbers<T: Width>(&mut self) -> Vec<T> {
        let count = self.count();
        (0..count).map(|_| T::of_bits(self.bits())).collect()
    }

    fn counts(&mut self) -> Vec<usize> {
        let count = self.count();
        (0..count).map(|_| self.count()).collect()
    }
}

/// The call and its outcome. The matrix behind given factors is not on a line.
pub fn read<T: Width>(line: &str) -> (Call<T>, Outcome<T>) {
    let mut f = Fields(line.split(' '));
    let mut c = Call::new(Function::named(f.next()).expect("a function's name"));
    (c.rows, c.columns) = (f.count(), f.count());
    (c.companion_rows, c.companion_columns) = (f.count(), f.count());
    c.outputs = [f.count(), f.count()];
    c.room = f.count();
    c.exponent = T::of_bits(f.bits());
    c.matrix = f.numbers();
    c.companion = f.numbers();
    c.pivots = f.counts();
    assert_eq!(f.next(), "|");
    let outcome = match f.next() {
        "no" => Outcome::Refused(Refusal(f.count(), f.count(), f.count())),
        word => {
            assert!(word == "ok" || word == "near");
            let (halvings, smallest) = (f.count(), f64::from_bits(f.bits()));
            let (steps, settled) = (f.count(), f.is_yes());
            let (near, outputs) = (word == "near", [f.numbers(), f.numbers()]);
            Outcome::Done(Done { halvings, near, smallest, steps, settled, outputs, pivots: f.counts() })
        }
    };
    assert!(f.0.next().is_none(), "extra fields");
    (c, outcome)
}

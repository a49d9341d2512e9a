//! Compares the port's exported entries with the source and with the documents: sheets made from a seed, the bytes that each must give, and a check of
//! what the entry did with them; and the same of sections that a sheet is written from.

pub mod check;
pub mod expected;
pub mod make;
pub mod run;
pub mod samples;
pub mod sheet;
pub mod shrink;
pub mod tally;
pub mod writer;

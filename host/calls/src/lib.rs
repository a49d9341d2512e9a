//! Compares the port's public calls with the source, at both widths: calls made from a seed, what each must do with what it is lent, and a check of what
//! it did.

pub mod check;
pub mod entries;
pub mod kernels;
pub mod lent;
pub mod make;
pub mod run;
pub mod tally;

//! The writer of sheets (document 02's #107): sections made from a seed, what each must give, and a check of what the entry did with them.

pub mod check;
pub mod expected;
pub mod given;
pub mod make;
pub mod run;
pub mod sections;
pub mod tally;

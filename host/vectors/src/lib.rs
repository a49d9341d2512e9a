//! Calls of document 01's functions with their answers, at both widths of numbers. The source computes the numbers; the rules of documents 01 and 02 give the
//! refusals that the source does not have.

pub mod answer;
pub mod call;
pub mod cases;
pub mod given;
pub mod matrices;
pub mod norms;
pub mod planted;
pub mod questions;
pub mod random;
pub mod read;
pub mod reports;
pub mod roots;
pub mod sylvester;
pub mod width;

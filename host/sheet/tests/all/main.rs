//! Tests of `sheet`. What needs the entries runs over stand-ins, and again over the port where its static library was there.

mod command;
mod numbers;
mod port;
mod program;
mod random;
mod run;
mod standin;
mod text;
mod write;

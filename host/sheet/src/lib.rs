//! The command `sheet`: makes a sheet from a plain text, prints a sheet as such a text, and runs a sheet and prints its lines in words. Sheets are
//! written and run by the port's entries; no Rust source of the port is needed.

pub mod command;
pub mod files;
pub mod help;
pub mod layout;
pub mod numbers;
pub mod run;
pub mod show;
pub mod text;
pub mod words;
pub mod write;

/// Why a command did not do what was asked, and its exit status.
#[derive(Clone, Debug, PartialEq, Eq)]
pub struct Failure {
    pub status: u8,
    pub message: String,
}

impl Failure {
    /// The text has an error, or the sheet is refused.
    pub fn refused(message: String) -> Failure {
        Failure { status: 1, message }
    }

    /// Wrong use, a file that cannot be read or written, no library, or a library that does not do what this program expects.
    pub fn failed(message: String) -> Failure {
        Failure { status: 2, message: format!("sheet: {message}") }
    }
}

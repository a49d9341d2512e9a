//! The commands, by their arguments.

use crate::help::{USAGE, help};
use crate::{Failure, files, run, show, write};
use entry::{ABSENT, Port, SHEET_LENGTH};
use std::ffi::{OsStr, OsString};

/// One byte more than the longest sheet: a longer one is refused for that byte.
const SHEET_MOST: u64 = SHEET_LENGTH as u64 + 1;

/// What is printed, and the exit status.
#[derive(Clone, Debug, PartialEq, Eq)]
pub struct Done {
    pub text: String,
    pub status: u8,
}

fn write_sheet(port: Port, text: &OsStr, sheet: &OsStr) -> Result<Done, Failure> {
    if files::same(text, sheet) {
        return Err(Failure::failed(format!("{}: the sheet would replace its text", sheet.display())));
    }
    let bytes = write::sheet(port.write, &text.display().to_string(), &files::read(text, u64::MAX)?)?;
    files::write(sheet, &bytes)?;
    Ok(Done { text: String::new(), status: 0 })
}

fn show_sheet(port: Port, sheet: &OsStr) -> Result<Done, Failure> {
    let bytes = files::read(sheet, SHEET_MOST)?;
    let text = show::show(port.write, &sheet.display().to_string(), &bytes)?;
    Ok(Done { text, status: 0 })
}

fn run_sheet(port: Port, sheet: &OsStr) -> Result<Done, Failure> {
    let bytes = files::read(sheet, SHEET_MOST)?;
    let report = run::run(port.run, &sheet.display().to_string(), &bytes)?;
    Ok(Done { text: report.text, status: report.refused.into() })
}

/// Does what the arguments ask, printing apart.
pub fn dispatch(port: Option<Port>, arguments: &[OsString]) -> Result<Done, Failure> {
    let port = || port.ok_or_else(|| Failure::failed(ABSENT.to_string()));
    match arguments {
        _ if arguments.iter().any(|argument| argument == "--help") => Ok(Done { text: help(), status: 0 }),
        [command, text, sheet] if command == "write" => write_sheet(port()?, text, sheet),
        [command, sheet] if command == "show" => show_sheet(port()?, sheet),
        [command, sheet] if command == "run" => run_sheet(port()?, sheet),
        _ => Err(Failure { status: 2, message: USAGE.to_string() }),
    }
}

/// Does what the arguments ask and reports the exit status.
pub fn perform(port: Option<Port>, arguments: &[OsString]) -> u8 {
    let printed = |done: Done| files::print(&done.text).map(|()| done.status);
    dispatch(port, arguments).and_then(printed).unwrap_or_else(|failure| {
        files::say(&failure.message);
        failure.status
    })
}

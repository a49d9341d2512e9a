use sheet::command::perform;
use std::env::args_os;
use std::process::ExitCode;

fn main() -> ExitCode {
    let arguments: Vec<_> = args_os().skip(1).collect();
    ExitCode::from(perform(entry::port(), &arguments))
}

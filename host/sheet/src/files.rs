//! Reading and writing of files. `-` stands for standard input or output.

use crate::Failure;
use std::ffi::{OsStr, OsString};
use std::fs::{self, File, OpenOptions};
use std::io::{self, ErrorKind, Read, Write, stderr, stdin, stdout};
use std::path::{Path, PathBuf};
use std::process;

fn unread(name: &OsStr, error: io::Error) -> Failure {
    let name = if name == "-" { OsStr::new("standard input") } else { name };
    Failure::failed(format!("{}: cannot be read: {error}", name.display()))
}

fn unwritten(name: &OsStr, error: io::Error) -> Failure {
    let name = if name == "-" { OsStr::new("standard output") } else { name };
    Failure::failed(format!("{}: cannot be written: {error}", name.display()))
}

/// At most so many bytes of a file.
pub fn read(name: &OsStr, most: u64) -> Result<Vec<u8>, Failure> {
    let mut bytes = Vec::new();
    let done = if name == "-" {
        stdin().lock().take(most).read_to_end(&mut bytes)
    } else {
        File::open(name).and_then(|file| file.take(most).read_to_end(&mut bytes))
    };
    done.map(|_| bytes).map_err(|error| unread(name, error))
}

fn to_output(bytes: &[u8]) -> io::Result<()> {
    let mut output = stdout().lock();
    output.write_all(bytes)?;
    output.flush()
}

/// Prints a text. A reader that wants no more of it, such as `head`, is no error.
pub fn print(text: &str) -> Result<(), Failure> {
    match to_output(text.as_bytes()) {
        Err(error) if error.kind() != ErrorKind::BrokenPipe => Err(unwritten(OsStr::new("-"), error)),
        _ => Ok(()),
    }
}

/// Says what went wrong. Where standard error cannot be written there is nobody to tell.
pub fn say(message: &str) {
    let _ = writeln!(stderr(), "{message}");
}

/// A new file beside another one.
fn temporary(path: &Path) -> io::Result<(PathBuf, File)> {
    let mut name = OsString::from(".");
    name.push(path.file_name().ok_or(ErrorKind::InvalidInput)?);
    name.push(format!(".{}.tmp", process::id()));
    let path = path.with_file_name(name);
    let file = OpenOptions::new().write(true).create_new(true).open(&path)?;
    Ok((path, file))
}

/// Makes the file at once as a whole: it is filled under another name and then renamed. One that is there keeps its permissions.
fn replace(path: &Path, bytes: &[u8], old: Option<fs::Metadata>) -> io::Result<()> {
    if old.as_ref().is_some_and(|old| old.permissions().readonly()) {
        return Err(ErrorKind::PermissionDenied.into());
    }
    let (temporary, mut file) = temporary(path)?;
    let done = file
        .write_all(bytes)
        .and_then(|()| old.map_or(Ok(()), |old| file.set_permissions(old.permissions())))
        .and_then(|()| file.sync_all())
        .and_then(|()| fs::rename(&temporary, path));
    if done.is_err() {
        let _ = fs::remove_file(&temporary);
    }
    done
}

fn to_file(name: &OsStr, bytes: &[u8]) -> io::Result<()> {
    match fs::metadata(name) {
        // The file that a link names is replaced, not the link.
        Ok(old) if old.is_file() => replace(&fs::canonicalize(name)?, bytes, Some(old)),
        Ok(old) if old.is_dir() => Err(ErrorKind::IsADirectory.into()),
        // A device or a pipe is no file that could be replaced.
        Ok(_) => OpenOptions::new().write(true).open(name)?.write_all(bytes),
        Err(_) => replace(Path::new(name), bytes, None),
    }
}

/// Writes the bytes. A regular file gets all of them or stays as it was.
pub fn write(name: &OsStr, bytes: &[u8]) -> Result<(), Failure> {
    let done = if name == "-" { to_output(bytes) } else { to_file(name, bytes) };
    done.map_err(|error| unwritten(name, error))
}

/// Whether two names are those of one regular file.
pub fn same(first: &OsStr, second: &OsStr) -> bool {
    match (fs::canonicalize(first), fs::canonicalize(second)) {
        (Ok(first), Ok(second)) => first == second && first.is_file(),
        _ => false,
    }
}

//! The commands: exit status and files, with a stand-in for the entries. What needs no entry runs the program itself.

use crate::program::{directory, names, program};
use crate::standin::{port, sample_sheets, samples};
use sheet::Failure;
use sheet::command::{Done, dispatch};
use std::ffi::OsString;
use std::fs;
use std::path::Path;

fn command(command: &str, files: &[&Path]) -> Result<Done, Failure> {
    let arguments: Vec<OsString> =
        [OsString::from(command)].into_iter().chain(files.iter().map(OsString::from)).collect();
    dispatch(Some(port()), &arguments)
}

/// The exit status.
fn status(name: &str, files: &[&Path]) -> u8 {
    command(name, files).map_or_else(|failure| failure.status, |done| done.status)
}

#[test]
fn a_sheet_is_made_and_replaced() {
    let directory = directory("made");
    let sheet = directory.join("pass.sheet");
    assert_eq!(status("write", &[&samples().join("pass.txt"), &sheet]), 0);
    assert!(fs::read(&sheet).unwrap().len() > 46);
    assert_eq!(status("write", &[&samples().join("shear.txt"), &sheet]), 0);
    assert_eq!(fs::read(&sheet).unwrap(), fs::read(samples().join("shear.sheet")).unwrap());
    assert_eq!(names(&directory), ["pass.sheet"]);
}

#[test]
fn an_error_writes_nothing() {
    let directory = directory("nothing");
    let (text, sheet, old) = (directory.join("a.txt"), directory.join("a.sheet"), directory.join("old.sheet"));
    fs::write(&old, "as it was").unwrap();
    // An error of the text, one that the entry finds, and no text at all.
    for wrong in ["order 2\n1 1\n", "order 1\n1\ntask expm 1\n", "order 1\n1\n", ""] {
        fs::write(&text, wrong).unwrap();
        assert_eq!(status("write", &[&text, &sheet]), 1);
        assert_eq!(status("write", &[&text, &old]), 1);
        assert_eq!(fs::read(&old).unwrap(), b"as it was");
        assert_eq!(names(&directory), ["a.txt", "old.sheet"]);
    }
}

#[test]
fn files_that_cannot_be_used_are_told() {
    let directory = directory("files");
    let shear = samples().join("shear.txt");
    let told = |name: &str, files: &[&Path], part: &str| {
        let failure = command(name, files).unwrap_err();
        assert!(failure.status == 2 && failure.message.contains(part), "{failure:?}");
    };
    told("write", &[&directory.join("absent.txt"), &directory.join("a.sheet")], "absent.txt: cannot be read: ");
    told("write", &[&shear, &directory], "files: cannot be written: ");
    told("write", &[&shear, &directory.join("absent/a.sheet")], "a.sheet: cannot be written: ");
    told("show", &[&directory.join("absent.sheet")], "absent.sheet: cannot be read: ");
    told("run", &[&directory], "files: cannot be read: ");
    let text = directory.join("same.txt");
    fs::copy(&shear, &text).unwrap();
    told("write", &[&text, &directory.join("../files/same.txt")], "the sheet would replace its text");
    assert_eq!(fs::read(&text).unwrap(), fs::read(&shear).unwrap());
    assert_eq!(names(&directory), ["same.txt"]);
}

#[test]
#[cfg(unix)]
fn permissions_links_and_devices_are_kept() {
    use std::os::unix::fs::{FileTypeExt, PermissionsExt, symlink};
    let directory = directory("kept");
    let (shear, sheet, link) = (samples().join("shear.txt"), directory.join("a.sheet"), directory.join("link.sheet"));
    fs::write(&sheet, "").unwrap();
    fs::set_permissions(&sheet, fs::Permissions::from_mode(0o640)).unwrap();
    symlink("a.sheet", &link).unwrap();
    assert_eq!(status("write", &[&shear, &link]), 0);
    assert!(fs::symlink_metadata(&link).unwrap().is_symlink());
    assert_eq!(fs::read(&sheet).unwrap().len(), 46);
    assert_eq!(fs::metadata(&sheet).unwrap().permissions().mode() & 0o777, 0o640);
    fs::set_permissions(&sheet, fs::Permissions::from_mode(0o440)).unwrap();
    assert_eq!(status("write", &[&samples().join("pass.txt"), &sheet]), 2);
    assert_eq!(fs::read(&sheet).unwrap().len(), 46);
    assert_eq!(status("write", &[&shear, Path::new("/dev/null")]), 0);
    assert!(fs::metadata("/dev/null").unwrap().file_type().is_char_device());
    assert_eq!(names(&directory), ["a.sheet", "link.sheet"]);
}

#[test]
fn the_status_says_what_was_refused() {
    for (name, _, lines) in sample_sheets() {
        let sheet = samples().join(format!("{name}.sheet"));
        assert_eq!(status("run", &[&sheet]), lines.contains(" no ").into(), "{name}");
        assert_eq!(status("show", &[&sheet]), lines.starts_with("0 no").into(), "{name}");
    }
}

#[test]
fn wrong_use_is_told() {
    for arguments in
        [&[][..], &["write"], &["write", "a"], &["write", "a", "b", "c"], &["show"], &["run", "a", "b"], &["put", "a"]]
    {
        let output = program(arguments, b"");
        assert_eq!((output.status.code(), &output.stdout[..]), (Some(2), &b""[..]), "{arguments:?}");
        assert_eq!(
            output.stderr,
            b"usage: sheet write TEXT SHEET | sheet show SHEET | sheet run SHEET | sheet --help\n"
        );
    }
}

#[test]
fn help_is_printed() {
    for arguments in [&["--help"][..], &["show", "--help"]] {
        let output = program(arguments, b"");
        let text = String::from_utf8(output.stdout).unwrap();
        assert_eq!((output.status.code(), &output.stderr[..]), (Some(0), &b""[..]));
        assert!(
            ["sheet write TEXT SHEET", "with an exponent: powm\n", "Exit status"]
                .iter()
                .all(|part| text.contains(part)),
            "{text}"
        );
    }
}

#[test]
#[cfg(not(port))]
fn without_the_library_nothing_is_done() {
    let directory = directory("without");
    let (text, sheet, made) = (samples().join("shear.txt"), samples().join("shear.sheet"), directory.join("a.sheet"));
    let [text, sheet, made] = [&text, &sheet, &made].map(|path| path.to_str().unwrap());
    for arguments in [&["write", text, made][..], &["show", sheet], &["run", sheet]] {
        let output = program(arguments, b"");
        assert_eq!((output.status.code(), &output.stdout[..]), (Some(2), &b""[..]));
        assert_eq!(String::from_utf8(output.stderr).unwrap(), format!("sheet: {}\n", entry::ABSENT));
    }
    assert!(names(&directory).is_empty());
}

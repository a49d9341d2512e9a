//! The program with the port, where its static library was there when this was built.

use crate::program::{command, directory, names, program};
use crate::random::Random;
use crate::standin::{sample_sheets, samples};
use entry::{ABSENT, port};
use sheet::{run, show, write};
use std::fs;
use std::process::Stdio;

/// `cargo test --quiet` does not say why tests are ignored. What is written to standard error itself is shown.
#[test]
#[cfg(not(port))]
fn the_port_is_not_there() {
    use std::io::Write;
    writeln!(std::io::stderr(), "sheet was not tried with the port: {ABSENT}").unwrap();
}

fn sample(name: &str) -> String {
    samples().join(name).to_str().unwrap().to_string()
}

fn text(bytes: &[u8]) -> &str {
    str::from_utf8(bytes).unwrap()
}

#[test]
#[cfg_attr(not(port), ignore = "the port's static library is not there")]
fn samples_are_shown_and_written_back() {
    let mut accepted = 0;
    for (name, bytes, lines) in sample_sheets() {
        let shown = program(&["show", &sample(&format!("{name}.sheet"))], b"");
        let refused = lines.starts_with("0 no");
        assert_eq!(shown.status.code(), Some(refused.into()), "{name}: {}", text(&shown.stderr));
        if !refused {
            let written = program(&["write", "-", "-"], &shown.stdout);
            assert_eq!((written.status.code(), written.stdout), (Some(0), bytes), "{name}");
            accepted += 1;
        }
    }
    assert!(accepted >= 9, "{accepted}");
}

#[test]
#[cfg_attr(not(port), ignore = "the port's static library is not there")]
fn samples_are_run() {
    for (name, bytes, lines) in sample_sheets() {
        let output = program(&["run", "-"], &bytes);
        let digit = |line: &&str| line.starts_with(|first: char| first.is_ascii_digit());
        let kept: Vec<&str> = text(&output.stdout).lines().filter(digit).collect();
        assert_eq!(kept, lines.lines().collect::<Vec<_>>(), "{name}");
        let refused = lines.contains(" no ");
        assert_eq!((output.status.code(), text(&output.stderr)), (Some(refused.into()), ""), "{name}");
    }
}

#[test]
#[cfg_attr(not(port), ignore = "the port's static library is not there")]
fn random_sheets_are_shown_and_written_back() {
    let entries = port().expect(ABSENT);
    let mut random = Random(3);
    for number in 0..1_000 {
        let bytes = random.sheet();
        let text = show::show(entries.write, "s", &bytes).unwrap();
        assert_eq!(write::sheet(entries.write, "s", text.as_bytes()), Ok(bytes), "sheet {number}");
    }
}

/// The port and the reader of this package refuse the same sheets, for the same byte: otherwise `run` fails.
#[test]
#[cfg_attr(not(port), ignore = "the port's static library is not there")]
fn damaged_sheets_are_refused_alike() {
    let entries = port().expect(ABSENT);
    let same = |bytes: &[u8]| {
        let report = run::run(entries.run, "s", bytes).unwrap();
        let shown = show::show(entries.write, "s", bytes);
        assert_eq!(report.text.starts_with("the sheet is refused"), shown.is_err(), "{bytes:?}");
    };
    let sheets = sample_sheets().into_iter().filter(|sample| sample.1.len() < 100);
    for (_, bytes, _) in sheets {
        for position in 0..bytes.len() {
            same(&bytes[..position]);
            for byte in [0, 1, 2, 9, 11, 17, 255] {
                let mut changed = bytes.clone();
                changed[position] = byte;
                same(&changed);
            }
        }
        same(&[&bytes[..], &[0]].concat());
    }
}

#[test]
#[cfg_attr(not(port), ignore = "the port's static library is not there")]
fn the_sample_text_is_run() {
    let written = program(&["write", &sample("pass.txt"), "-"], b"");
    assert_eq!((written.status.code(), text(&written.stderr)), (Some(0), ""));
    let output = program(&["run", "-"], &written.stdout);
    assert_eq!((output.status.code(), text(&output.stderr)), (Some(0), ""), "{}", text(&output.stdout));
}

const START: &str = "# a pass\norder 2\n1 1\n0 1\n";

#[test]
#[cfg_attr(not(port), ignore = "the port's static library is not there")]
fn refusals_lead_to_lines_and_nothing_is_written() {
    let directory = directory("port");
    let old = directory.join("old.sheet");
    fs::write(&old, "as it was").unwrap();
    let direction = "direction\n1 0\n0 1\n";
    let table = [
        (
            format!("{}task expm\n", direction.repeat(9)),
            "-:29: a sheet has at most 8 directions, and this is one more (refusal 16, byte 33)",
        ),
        (
            format!("task expm\n{}", "exponent 1\n".repeat(9)),
            "-:14: a sheet has at most 8 exponents, and this is one more (refusal 16, byte 34)",
        ),
        ("task expm\n".repeat(17), "-:21: a sheet has at most 16 tasks, and this is one more (refusal 16, byte 35)"),
        (
            "exponent 1\n".to_string(),
            "-:5: the text ends without a task, and a sheet has at least one (refusal 16, byte 43)",
        ),
        (
            "task powm 1\nexponent 3\n".to_string(),
            "-:5: there is no exponent 1: exponents are numbered from 0, and there is 1 (refusal 16, byte 45)",
        ),
        (
            "task frechet_expm 0\n".to_string(),
            "-:5: there is no direction 0: directions are numbered from 0, and there is none (refusal 16, byte 37)",
        ),
        (
            "task expm 300\n".to_string(),
            "-:5: expm takes no index: 300 stands where only 0 may stand (refusal 16, byte 37)",
        ),
        ("task expo\n".to_string(), "-:5: \"expo\" is no function: there are expm"),
    ];
    for (lines, message) in table {
        for sheet in [old.clone(), directory.join("new.sheet")] {
            let output = program(&["write", "-", sheet.to_str().unwrap()], format!("{START}{lines}").as_bytes());
            assert_eq!(output.status.code(), Some(1));
            assert!(text(&output.stderr).starts_with(message), "{}", text(&output.stderr));
        }
        assert_eq!(fs::read(&old).unwrap(), b"as it was");
        assert_eq!(names(&directory), ["old.sheet"]);
    }
}

/// The reader is gone, as `head` is after its lines.
#[test]
#[cfg(unix)]
#[cfg_attr(not(port), ignore = "the port's static library is not there")]
fn a_closed_pipe_ends_quietly() {
    for name in ["show", "run"] {
        let pipes =
            command().args([name, &sample("longest.sheet")]).stdout(Stdio::piped()).stderr(Stdio::piped()).spawn();
        let mut child = pipes.unwrap();
        drop(child.stdout.take());
        let output = child.wait_with_output().unwrap();
        assert_eq!((output.status.code(), text(&output.stderr)), (Some(0), ""));
    }
}

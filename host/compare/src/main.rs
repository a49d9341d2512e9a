//! `compare SEED COUNT [FIRST]` compares the port with the source on COUNT sheets from sheet FIRST (0) on, `compare write SEED COUNT [FIRST]` the port's
//! writer with document 02 on COUNT calls. `compare lines FILE` prints the lines that the sheet in FILE must give, `compare samples DIRECTORY` writes the
//! sample sheets and their lines.

use compare::expected::{Line, expected};
use compare::samples::samples;
use compare::{run, tally, writer};
use entry::{ABSENT, Port, ROOM};
use std::env::args;
use std::fmt::Display;
use std::path::Path;
use std::process::exit;
use std::time::{Duration, Instant};
use std::{fs, io};

fn usage() -> ! {
    eprintln!(
        "compare SEED COUNT [FIRST]\ncompare write SEED COUNT [FIRST]\ncompare lines FILE\ncompare samples DIRECTORY"
    );
    exit(2)
}

/// A line of progress from time to time.
fn progress<Tally>(what: &str, counts: impl Fn(&Tally) -> String) -> impl FnMut(u64, &Tally) {
    let mut next = Instant::now() + Duration::from_secs(5);
    move |number, tally| {
        if Instant::now() >= next {
            eprintln!("{what} {number}: {}", counts(tally));
            next += Duration::from_secs(5);
        }
    }
}

fn port() -> Port {
    entry::port().unwrap_or_else(|| {
        eprintln!("compare: {ABSENT}");
        exit(2)
    })
}

/// Prints the counts, or the difference and ends.
fn conclude(seed: u64, result: Result<impl Display, impl Display>) {
    match result {
        Ok(tally) => println!("{tally}\nno difference"),
        Err(difference) => {
            println!("seed {seed}: {difference}");
            exit(1)
        }
    }
}

fn compare(seed: u64, count: u64, first: u64) {
    let port = port();
    eprintln!("seed {seed}, sheets {first} to {}", first + count);
    let counts = |t: &tally::Tally| format!("{} tasks compared, {} left out", t.compared(), t.left_out());
    conclude(seed, run::run(port.run, seed, first..first + count, progress("sheet", counts)));
}

fn compare_writer(seed: u64, count: u64, first: u64) {
    let port = port();
    eprintln!("seed {seed}, calls {first} to {}", first + count);
    let counts = |t: &writer::tally::Tally| format!("{} written, {} refused", t.written, t.refused());
    conclude(seed, writer::run::run(port.write, seed, first..first + count, progress("call", counts)));
}

/// The text of a sheet's lines. A line for which the source counts other halvings is named so.
fn lines(bytes: &[u8]) -> String {
    let mut text = String::new();
    for (k, line) in expected(bytes, ROOM).lines().iter().enumerate() {
        match line {
            Line::Text(line) | Line::LeftOut(_, Some(line)) => text.push_str(line),
            Line::LeftOut(_, None) => text.push_str(&format!("{}: the source counts other halvings", k + 1)),
        }
        text.push('\n');
    }
    text
}

fn write_samples(directory: &Path) -> io::Result<()> {
    fs::create_dir_all(directory)?;
    for (name, bytes) in samples() {
        fs::write(directory.join(format!("{name}.lines")), lines(&bytes))?;
        fs::write(directory.join(format!("{name}.sheet")), bytes)?;
    }
    Ok(())
}

/// SEED COUNT [FIRST].
fn numbers(words: &[&str]) -> (u64, u64, u64) {
    let numbers: Result<Vec<u64>, _> = words.iter().map(|word| word.parse()).collect();
    match numbers.as_deref() {
        Ok([seed, count]) => (*seed, *count, 0),
        Ok([seed, count, first]) => (*seed, *count, *first),
        _ => usage(),
    }
}

fn main() -> io::Result<()> {
    let given: Vec<String> = args().skip(1).collect();
    let given: Vec<&str> = given.iter().map(String::as_str).collect();
    match given[..] {
        ["lines", file] => print!("{}", lines(&fs::read(file)?)),
        ["samples", directory] => write_samples(Path::new(directory))?,
        ["write", ..] => {
            let (seed, count, first) = numbers(&given[1..]);
            compare_writer(seed, count, first);
        }
        _ => {
            let (seed, count, first) = numbers(&given);
            compare(seed, count, first);
        }
    }
    Ok(())
}

//! `vectors NAME SEED COUNT` prints COUNT calls of one function with their answers, `vectors given NAME` those that are written out, and
//! `vectors roots` square roots. `vectors planted NAME` prints four calls that are wrong in one bit each, `vectors planted roots` one such root. With f32
//! before the other words the numbers are f32.

use std::env::args;
use std::io::{BufWriter, Result, Write, stdout};
use std::process::exit;
use vectors::answer::answer;
use vectors::call::{FUNCTIONS, Function, Outcome, line};
use vectors::cases::case;
use vectors::given::given;
use vectors::planted::{planted, planted_root};
use vectors::random::Random;
use vectors::roots::roots;
use vectors::width::Width;

fn print_root<T: Width>(out: &mut impl Write, (x, root): (u64, u64)) -> Result<()> {
    let digits = T::BITS as usize / 4;
    writeln!(out, "{x:0digits$x} {root:0digits$x}")
}

fn print_roots<T: Width>() -> Result<()> {
    let mut out = BufWriter::new(stdout());
    for pair in roots::<T>() {
        print_root::<T>(&mut out, pair)?;
    }
    out.flush()
}

fn print_calls<T: Width>(function: Function, seed: u64, count: usize) -> Result<()> {
    let mut out = BufWriter::new(stdout());
    // Each function has a sequence of its own.
    let mut random = Random::new(seed.wrapping_mul(16).wrapping_add(function.sequence()));
    let (mut printed, mut near, mut parted) = (0, 0, 0);
    while printed < count {
        let call = case::<T>(function, &mut random);
        let outcome = answer(&call);
        match &outcome {
            Outcome::Parted => parted += 1,
            Outcome::Done(done) if done.near => near += 1,
            _ => {}
        }
        if let Some(text) = line(&call, &outcome) {
            writeln!(out, "{text}")?;
            printed += 1;
        }
    }
    out.flush()?;
    eprintln!("{}: {printed} printed, {near} of them near a power of two, {parted} left out", function.name());
    Ok(())
}

fn print_given<T: Width>(function: Function) -> Result<()> {
    let mut out = BufWriter::new(stdout());
    for call in given::<T>(function) {
        if let Some(text) = line(&call, &answer(&call)) {
            writeln!(out, "{text}")?;
        }
    }
    out.flush()
}

fn print_planted<T: Width>(function: Function) -> Result<()> {
    for text in planted::<T>(function).iter().filter_map(|(call, outcome)| line(call, outcome)) {
        writeln!(stdout(), "{text}")?;
    }
    Ok(())
}

fn usage() -> ! {
    let names: Vec<&str> = FUNCTIONS.iter().map(|(_, name)| *name).collect();
    let forms = ["NAME SEED COUNT", "given NAME", "planted NAME", "planted roots", "roots"];
    for form in forms {
        eprintln!("vectors [f32] {form}");
    }
    eprintln!("NAME: {}", names.join(" "));
    exit(2)
}

/// What the words ask for, at one width.
fn run<T: Width>(words: &[&str]) -> Result<()> {
    match *words {
        ["roots"] => print_roots::<T>(),
        ["given", name] => match Function::named(name) {
            Some(function) if function.coded() => print_given::<T>(function),
            _ => usage(),
        },
        ["planted", "roots"] => print_root::<T>(&mut stdout(), planted_root::<T>()),
        ["planted", name] => match Function::named(name) {
            Some(function) => print_planted::<T>(function),
            None => usage(),
        },
        [name, seed, count] => match (Function::named(name), seed.parse(), count.parse()) {
            (Some(function), Ok(seed), Ok(count)) => print_calls::<T>(function, seed, count),
            _ => usage(),
        },
        _ => usage(),
    }
}

fn main() -> Result<()> {
    let words: Vec<String> = args().skip(1).collect();
    let words: Vec<&str> = words.iter().map(String::as_str).collect();
    match words.split_first() {
        Some((&"f32", others)) => run::<f32>(others),
        _ => run::<f64>(&words),
    }
}

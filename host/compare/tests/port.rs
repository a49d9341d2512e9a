//! The port, where its static library was there when this was built.

use compare::check::check;
use compare::expected::expected;
use compare::run::run;
use compare::samples::samples;
use compare::writer;
use entry::{ABSENT, ROOM, port};

/// `cargo test --quiet` does not say why tests are ignored. What is written to standard error itself is shown.
#[test]
#[cfg(not(port))]
fn the_port_is_not_there() {
    use std::io::Write;
    writeln!(std::io::stderr(), "the port was not compared: {ABSENT}").unwrap();
}

#[test]
#[cfg_attr(not(port), ignore = "the port's static library is not there")]
fn the_port_gives_the_samples() {
    let entry = port().expect(ABSENT).run;
    for (name, bytes) in samples() {
        check(entry, &bytes, ROOM, &expected(&bytes, ROOM).lines()).unwrap_or_else(|fault| panic!("{name}: {fault}"));
    }
}

#[test]
#[cfg_attr(not(port), ignore = "the port's static library is not there")]
fn the_port_does_not_differ() {
    let entry = port().expect(ABSENT).run;
    let tally = run(entry, 1, 0..500, |_, _| {}).unwrap_or_else(|d| panic!("{d}"));
    println!("{tally}");
}

#[test]
#[cfg_attr(not(port), ignore = "the port's static library is not there")]
fn the_port_writes_the_given_calls() {
    let write = port().expect(ABSENT).write;
    for (name, sections, room, _) in writer::given::given() {
        let s = sections.lent();
        let wanted = writer::expected::written(&s, room);
        writer::check::check(write, &s, room, &wanted).unwrap_or_else(|fault| panic!("{name}: {fault}"));
    }
}

#[test]
#[cfg_attr(not(port), ignore = "the port's static library is not there")]
fn the_port_does_not_write_otherwise() {
    let write = port().expect(ABSENT).write;
    let tally = writer::run::run(write, 1, 0..500, |_, _| {}).unwrap_or_else(|d| panic!("{d}"));
    println!("{tally}");
}

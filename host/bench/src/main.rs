//! Times the port and the source side by side, in one run: `bench` on the same sheets, `bench calls` on the same calls in f32, beside the port's f64
//! calls. `bench magnitudes` times steps of the port. README.md of host/ says what is timed.

mod direct;
mod inputs;
mod magnitudes;
mod source;
mod timing;

use compare::sheet::Sheet;
use entry::{ABSENT, ROOM, Run, port};
use inputs::{TIMED, overhead};
use std::hint::black_box;
use std::process::exit;
use std::time::Duration;
use timing::least_times;

/// Nanoseconds for a sheet: through the entry, by the source with reading and writing, and the source's calls alone.
#[derive(Clone, Copy)]
struct Times {
    port: f64,
    source: f64,
    calls: f64,
}

/// The output is lent once and not cleared between the runs.
fn measure(entry: Run, s: &Sheet, samples: usize, least: Duration) -> Times {
    let (bytes, smallest) = (s.bytes(), source::smallest(s));
    let mut written = [vec![0; ROOM], vec![0; ROOM]];
    let [first, second] = &mut written;
    let [port, source, calls] = least_times(
        samples,
        least,
        &mut [
            &mut || {
                black_box(entry(black_box(&bytes), first));
            },
            &mut || {
                black_box(source::sheet(black_box(&bytes), black_box(&smallest), second));
            },
            &mut || source::calls(s),
        ],
    );
    assert!(written[0] == written[1], "the port and the source write other lines");
    Times { port, source, calls }
}

fn report(entry: Run, samples: usize, least: Duration) {
    for n in 2..=8 {
        let t = measure(entry, &overhead(n), samples, least);
        println!("overhead {n} port {:.0} ns source {:.0} ns", t.port, t.source);
    }
    for timed in TIMED {
        for s in timed.sheets() {
            let t = measure(entry, &s, samples, least);
            let (name, n) = (timed.name, s.order);
            println!("time {name} {n} port {:.0} ns source {:.0} ns calls {:.0} ns", t.port, t.source, t.calls);
            println!("ratio {name} {n} {:.2}", t.port / t.source);
            println!("bound {name} {n} {:.2}", t.port / t.calls);
        }
    }
}

fn sheets(samples: usize, least: Duration) {
    let Some(port) = port() else {
        eprintln!("bench: {ABSENT}");
        exit(2)
    };
    report(port.run, samples, least);
}

fn main() {
    let words: Vec<String> = std::env::args().skip(1).collect();
    let (samples, least) = (15, Duration::from_millis(2));
    match words.iter().map(String::as_str).collect::<Vec<&str>>()[..] {
        [] => sheets(samples, least),
        ["calls"] => direct::calls(samples, least),
        ["magnitudes"] => magnitudes::magnitudes(samples, least),
        _ => {
            eprintln!("bench [calls | magnitudes]");
            exit(2)
        }
    }
}

#[cfg(test)]
mod tests {
    use super::*;
    use compare::expected::{Line, expected};
    use compare::sheet::read;

    /// The source's side does what the entry must do, on every sheet that is timed; and all of them are inside the compared domain.
    #[test]
    fn the_source_writes_the_lines() {
        for s in TIMED.iter().flat_map(|timed| timed.sheets()).chain((2..=8).map(overhead)) {
            let bytes = s.bytes();
            let mut output = vec![0; ROOM];
            let reported = source::sheet(&bytes, &source::smallest(&s), &mut output);
            let text = String::from_utf8(output[..reported].to_vec()).unwrap();
            let lines: Vec<Line> = text.lines().map(|line| Line::Text(line.to_string())).collect();
            assert_eq!(lines, expected(&bytes, ROOM).lines());
        }
    }

    /// The source's side in the entry's place; it finds the smallest pivots by itself.
    fn source_alone(bytes: &[u8], output: &mut [u8]) -> usize {
        source::sheet(bytes, &source::smallest(&read(bytes).expect("an accepted sheet")), output)
    }

    /// The report, with the source in the entry's place.
    #[test]
    fn the_report_runs() {
        report(&source_alone, 1, Duration::ZERO);
    }

    /// A sheet whose lines are not the source's ends the program, here without the smallest pivots.
    #[test]
    #[should_panic = "write other lines"]
    fn a_sheet_that_differs_is_not_reported() {
        let without = |bytes: &[u8], output: &mut [u8]| {
            let mut whole = vec![0; ROOM];
            let reported = source_alone(bytes, &mut whole);
            let text = String::from_utf8(whole[..reported].to_vec()).unwrap();
            let lines: String = text.lines().map(|line| line[..line.len() - 17].to_string() + "\n").collect();
            output[..lines.len()].copy_from_slice(lines.as_bytes());
            lines.len()
        };
        report(&without, 1, Duration::ZERO);
    }
}

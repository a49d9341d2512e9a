//! The harness itself, tried on a stand-in for the entry that writes the expected output, and on stand-ins with a fault.

use compare::expected::{Line, expected};
use compare::run::{Difference, run};
use compare::sheet::{Sheet, Task, read};
use entry::{ROOM, Run};
use vectors::answer::answer;
use vectors::call::{CODES, Outcome, Refusal};

/// The expected lines; for a task where the source counts other halvings, a line of the right shape.
fn text(bytes: &[u8], lent: usize) -> String {
    let mut text = String::new();
    for (k, line) in expected(bytes, lent).lines().iter().enumerate() {
        match line {
            Line::Text(line) => text.push_str(line),
            Line::LeftOut(_, Some(line)) => text.push_str(line),
            Line::LeftOut(count, None) => {
                text.push_str(&format!("{} ok 0{}", k + 1, " 3ff0000000000000".repeat(*count)))
            }
        }
        text.push('\n');
    }
    text
}

fn put(output: &mut [u8], text: &str) -> usize {
    output[..text.len()].copy_from_slice(text.as_bytes());
    text.len()
}

fn stand_in(bytes: &[u8], output: &mut [u8]) -> usize {
    let text = text(bytes, output.len());
    put(output, &text)
}

fn first_difference(entry: Run) -> Difference {
    run(entry, 1, 0..400, |_, _| {}).err().expect("a difference")
}

/// A stand-in whose text is changed.
fn changed(change: impl Fn(&[u8], String) -> String) -> Difference {
    first_difference(&|bytes, output| {
        let text = change(bytes, text(bytes, output.len()));
        put(output, &text)
    })
}

fn shrunk(d: &Difference) -> Sheet {
    read(&d.sheet).unwrap_or_else(|refusal| panic!("{refusal:?}: {d}"))
}

/// No difference, and the sheets reach every function and every refusal that a sheet can meet.
#[test]
fn a_right_entry_passes() {
    let tally = run(&stand_in, 1, 0..400, |_, _| {}).unwrap_or_else(|d| panic!("{d}"));
    println!("{tally}");
    assert_eq!(tally.sheets, 400);
    assert!((0..CODES).all(|code| tally.done(code) > 20), "{tally}");
    let refusals = tally.refusals();
    assert_eq!(Vec::from_iter(refusals.keys().copied()), [5, 6, 7, 8, 10, 11, 12, 13, 15, 16, 17], "{tally}");
    assert!(tally.left_out() > 0 && tally.left_out() * 10 < tally.compared(), "{tally}");
}

/// Trials of one seed are the same each time, whichever comes first.
#[test]
fn trials_repeat() {
    use compare::make::trial;
    let bytes = |seed| (0..50).map(|k| trial(seed, k).bytes).collect::<Vec<_>>();
    assert_eq!(bytes(3), bytes(3));
    assert_ne!(bytes(3), bytes(4));
}

#[test]
fn upper_case_digits_are_found() {
    let d = changed(|_, text| text.replace('f', "F"));
    let sheet = shrunk(&d);
    assert_eq!(sheet.tasks.len(), 1, "{d}");
    assert!(sheet.order <= 2 && sheet.directions.len() <= 1 && sheet.exponents.len() <= 1, "{d}");
}

/// One function wrong from order 3 on: the least sheet has order 3 and that task alone.
#[test]
fn a_wrong_sine_is_found() {
    let wrong = |bytes: &[u8], text: String| {
        let Ok(sheet) = read(bytes) else { return text };
        let mut lines: Vec<String> = text.lines().map(|line| format!("{line}\n")).collect();
        for (line, task) in lines.iter_mut().zip(&sheet.tasks) {
            if task.code == 5 && sheet.order >= 3 {
                *line = line.replacen(" ok ", " ok 1", 1);
            }
        }
        lines.concat()
    };
    let d = changed(wrong);
    let sheet = shrunk(&d);
    assert_eq!((sheet.order, sheet.tasks.len(), sheet.tasks[0].code), (3, 1, 5), "{d}");
    assert_eq!((sheet.directions.len(), sheet.exponents.len()), (0, 0), "{d}");
    // The zero matrix does not show it: the norm + 1 is then a power of two.
    assert_eq!(sheet.matrix.iter().filter(|x| **x != 0.0).count(), 1, "{d}");
}

/// Code 10 answered as code 8: the least sheet has order 2, one direction, and a root that is not symmetric.
#[test]
fn the_other_derivative_is_found() {
    let other = |task: &Task| Task { code: if task.code == 10 { 8 } else { task.code }, ..*task };
    let d = changed(|bytes, right| match read(bytes) {
        Ok(sheet) if !right.is_empty() => {
            let tasks = sheet.tasks.iter().map(other).collect();
            text(&Sheet { tasks, ..sheet }.bytes(), ROOM)
        }
        _ => right,
    });
    let sheet = shrunk(&d);
    assert_eq!((sheet.order, sheet.tasks.len(), sheet.tasks[0].code), (2, 1, 10), "{d}");
    assert_eq!((sheet.directions.len(), sheet.exponents.len()), (1, 0), "{d}");
    let Outcome::Done(done) = answer(&sheet.call(sheet.tasks[0])) else { panic!("{d}") };
    assert_ne!(done.outputs[0][1].to_bits(), done.outputs[0][2].to_bits(), "{d}");
}

/// The line of a sheet with its first byte out of range at this position.
fn out_of_range(at: usize) -> String {
    format!("0 no 16 {at} 0\n")
}

/// The position of the first task that is asked for, in an accepted sheet's bytes.
fn position(bytes: &[u8], wanted: impl Fn(Task) -> bool) -> Option<usize> {
    let sheet = read(bytes).ok()?;
    let first = bytes.len() - 2 * sheet.tasks.len();
    sheet.tasks.iter().position(|task| wanted(*task)).map(|k| first + 2 * k)
}

/// The index of code 10 held to 0, as where no direction is named: the least sheet has two directions, of which it names the second.
#[test]
fn an_index_limit_of_1_is_found() {
    let d = changed(|bytes, text| match position(bytes, |task| task.code == 10 && task.index > 0) {
        Some(at) if !text.is_empty() => out_of_range(at + 1),
        _ => text,
    });
    let sheet = shrunk(&d);
    assert_eq!((sheet.tasks.len(), sheet.tasks[0], sheet.directions.len()), (1, Task { code: 10, index: 1 }, 2), "{d}");
}

/// Code 10 refused, as it was before #106.
#[test]
fn a_limit_of_10_codes_is_found() {
    let d = changed(|bytes, text| match position(bytes, |task| task.code == 10) {
        Some(at) if !text.is_empty() => out_of_range(at),
        _ => text,
    });
    assert_eq!(shrunk(&d).tasks[0].code, 10, "{d}");
}

/// Where a sheet is refused 16 at this distance after a code, the lines that it gives with the code of the square root in its place.
fn taken(bytes: &[u8], code: u8, distance: usize) -> Option<String> {
    let Err(Refusal(16, refused, 0)) = read(bytes) else { return None };
    let at = refused.checked_sub(distance).filter(|at| bytes[*at] == code)?;
    let mut other = bytes.to_vec();
    other[at] = 2;
    let first = position(&other, |_| true)?;
    (at >= first && (at - first).is_multiple_of(2)).then(|| text(&other, ROOM))
}

/// Code 11, and code 10 where there is no direction, are taken for a code without an index.
#[test]
fn a_code_that_is_taken_is_found() {
    for (code, distance) in [(11, 0), (10, 1)] {
        let d = changed(|bytes, right| match taken(bytes, code, distance) {
            Some(lines) if !right.is_empty() => lines,
            _ => right,
        });
        assert!(d.fault.contains(" no 16 "), "{d}");
    }
}

#[test]
fn a_missing_or_second_newline_is_found() {
    changed(|_, text| text.trim_end().to_string());
    changed(|_, text| text + "\n");
}

/// A refused sheet's position that is wrong: the sheet cut to nothing shows it.
#[test]
fn a_wrong_position_is_found() {
    let d = changed(|bytes, text| if read(bytes).is_err() { text.replace(" no 15 ", " no 15 1") } else { text });
    assert_eq!(d.sheet, [] as [u8; 0], "{d}");
}

/// Lines after a refused task that are left out.
#[test]
fn a_sheet_that_stops_is_found() {
    let d = changed(|_, text| match text.find(" no ") {
        Some(at) => text[..at + text[at..].find('\n').unwrap() + 1].to_string(),
        None => text,
    });
    assert_eq!(shrunk(&d).tasks.len(), 2, "{d}");
}

#[test]
fn bytes_beside_the_lines_are_found() {
    let after = first_difference(&|bytes, output| {
        let reported = stand_in(bytes, output);
        if let Some(byte) = output.get_mut(reported) {
            *byte = b'\n';
        }
        reported
    });
    assert!(after.fault.contains("is changed"), "{after}");
    let far = first_difference(&|bytes, output| {
        let last = output.len().saturating_sub(1);
        output.get_mut(last).into_iter().for_each(|byte| *byte = 0);
        stand_in(bytes, output)
    });
    assert!(far.fault.contains("is changed"), "{far}");
}

#[test]
fn a_wrong_report_is_found() {
    first_difference(&|bytes, output| stand_in(bytes, output) + 1);
    first_difference(&|bytes, output| stand_in(bytes, output).saturating_sub(1));
    first_difference(&|bytes, output| stand_in(bytes, output) + 100_000);
}

/// A line written into an output that is too short, or none into one that is just long enough.
#[test]
fn a_wrong_limit_is_found() {
    let low = first_difference(&|bytes, output| {
        let text = text(bytes, ROOM);
        if output.len() + 1 < ROOM { 0 } else { put(output, &text) }
    });
    assert_eq!(low.lent, ROOM - 1, "{low}");
    let high = first_difference(&|bytes, output| if output.len() <= ROOM { 0 } else { stand_in(bytes, output) });
    assert_eq!(high.lent, ROOM, "{high}");
    // The limit that stood before #103.
    let old = first_difference(&|bytes, output| {
        let text = text(bytes, ROOM);
        if output.len() < 35_000 { 0 } else { put(output, &text) }
    });
    assert!((35_000..ROOM).contains(&old.lent), "{old}");
}

/// A NaN that is printed with its sign.
#[test]
fn a_negative_nan_is_found() {
    let d = changed(|_, text| text.replace("7ff8000000000000", "fff8000000000000"));
    assert_eq!(shrunk(&d).tasks.len(), 1, "{d}");
}

/// The fields of each line that is done are changed.
fn with_fields(text: &str, change: impl Fn(&mut Vec<&str>)) -> String {
    let mut changed = String::new();
    for line in text.lines() {
        let mut fields: Vec<&str> = line.split(' ').collect();
        if fields[1] == "ok" {
            change(&mut fields);
        }
        changed += &(fields.join(" ") + "\n");
    }
    changed
}

/// The smallest pivot left out, written before the outputs, before the halvings, or twice.
#[test]
fn a_misplaced_smallest_pivot_is_found() {
    let left_out = changed(|_, text| with_fields(&text, |fields| fields.truncate(fields.len() - 1)));
    let before_outputs = changed(|_, text| with_fields(&text, |fields| fields[3..].rotate_right(1)));
    let before_halvings = changed(|_, text| with_fields(&text, |fields| fields[2..].rotate_right(1)));
    let twice = changed(|_, text| with_fields(&text, |fields| fields.push(fields[fields.len() - 1])));
    for d in [left_out, before_outputs, before_halvings, twice] {
        assert_eq!(shrunk(&d).tasks.len(), 1, "{d}");
    }
}

/// For each code the smallest pivot, and nothing else, is wrong: plus infinity, or 1 where it is that.
#[test]
fn a_wrong_smallest_pivot_is_found() {
    for code in 0..CODES {
        let d = changed(|bytes, text| {
            let Ok(sheet) = read(bytes) else { return text };
            let change = |fields: &mut Vec<&str>| {
                let (task, last) = (fields[0].parse::<usize>().unwrap(), fields.len() - 1);
                if sheet.tasks[task - 1].code == code {
                    let infinite = fields[last] == "7ff0000000000000";
                    fields[last] = if infinite { "3ff0000000000000" } else { "7ff0000000000000" };
                }
            };
            with_fields(&text, change)
        });
        let sheet = shrunk(&d);
        assert_eq!((sheet.tasks.len(), sheet.tasks[0].code), (1, code), "{d}");
    }
}

/// A line that is refused has no smallest pivot.
#[test]
fn a_smallest_pivot_beside_a_refusal_is_found() {
    let refused = |line: &str| line.split(' ').nth(1) == Some("no");
    let end = |line: &str| if refused(line) { " 7ff0000000000000\n" } else { "\n" };
    let d = changed(|_, text| text.lines().map(|line| line.to_string() + end(line)).collect());
    assert!(d.fault.contains(" no "), "{d}");
}

/// A line outside the compared domain must still have its shape.
#[test]
fn a_line_without_its_shape_is_found() {
    let d = changed(|bytes, text| {
        let mut lines: Vec<String> = text.lines().map(|line| format!("{line}\n")).collect();
        for (line, wanted) in lines.iter_mut().zip(expected(bytes, ROOM).lines()) {
            if let Line::LeftOut(..) = wanted {
                line.replace_range(line.len() - 18..line.len() - 1, "");
            }
        }
        lines.concat()
    });
    assert_eq!(shrunk(&d).tasks.len(), 1, "{d}");
}

//! Sheets run and put in words, with a stand-in for the entries.

use crate::standin::{port, sample_sheets};
use sheet::layout::{Sheet, Task, read};
use sheet::run::{Report, run};
use sheet::words::of_task;

fn sample(name: &str) -> (Vec<u8>, String) {
    let (_, bytes, lines) = sample_sheets().into_iter().find(|sample| sample.0 == name).unwrap();
    (bytes, lines)
}

fn reported(name: &str) -> Report {
    run(port().run, name, &sample(name).0).unwrap()
}

/// The lines that begin with a digit are those that the entry wrote.
#[test]
fn every_sample_is_put_in_words() {
    for (name, bytes, lines) in sample_sheets() {
        let report = run(port().run, &name, &bytes).unwrap();
        let kept: Vec<&str> =
            report.text.lines().filter(|line| line.starts_with(|first: char| first.is_ascii_digit())).collect();
        assert_eq!(kept, lines.lines().collect::<Vec<_>>(), "{name}");
        assert_eq!(report.refused, lines.contains(" no "), "{name}");
        assert!(!report.text.contains("details"), "{name}: a refusal without words");
    }
}

/// The numbers in words are those of the lines.
#[test]
fn the_numbers_are_those_of_the_lines() {
    for (name, bytes, lines) in sample_sheets() {
        let report = run(port().run, &name, &bytes).unwrap();
        let mut words = Vec::new();
        for line in report.text.lines() {
            if let Some(row) = line.strip_prefix("    ") {
                words.extend(row.split_whitespace().map(|field| sheet::numbers::read(field).unwrap()));
            } else if let Some(pivot) = line.strip_prefix("smallest pivot: ") {
                words.push(sheet::numbers::read(pivot.split(' ').next().unwrap()).unwrap());
            }
        }
        let done = lines.lines().filter(|line| line.contains(" ok "));
        let numbers: Vec<u64> = done
            .flat_map(|line| line.split(' ').skip(3))
            .map(|field| u64::from_str_radix(field, 16).unwrap())
            .collect();
        assert_eq!(words, numbers, "{name}");
    }
}

#[test]
fn shear_looks_like_this() {
    let text = "\
task 1: powm, exponent 0 = 3
1 ok 0 3ff0000000000000 4008000000000000 0000000000000000 3ff0000000000000 7ff0000000000000
halvings: 0
value:
    1  3
    0  1
smallest pivot: inf (nothing was factored, or no pivot was finite)
";
    assert_eq!(reported("shear"), Report { text: text.to_string(), refused: false });
}

#[test]
fn derivatives_and_conditions_look_like_this() {
    let text = reported("order_1").text;
    let derivative = "
task 9: frechet_sqrtm, direction 0
9 ok 0 4000000000000000 3fd0000000000000 7ff0000000000000
halvings: 0
value:
    2
derivative:
    0.25
smallest pivot: inf (nothing was factored, or no pivot was finite)

task 10: cond_expm
10 ok 3 3ff0000000000000 3fe8e3f76d326011
halvings: 3
condition:
    1
smallest pivot: 0.7778279431104257

task 11:";
    assert!(text.contains(derivative), "{text}");
}

#[test]
fn a_refused_sheet_looks_like_this() {
    let text = "the sheet is refused\n0 no 15 20 0\nbyte 20: the sheet ends here, within a number of A (refusal 15)\n";
    assert_eq!(reported("cut"), Report { text: text.to_string(), refused: true });
    let text = "the sheet is refused\n0 no 16 44 0\nbyte 44: 11 is no code of a function (refusal 16)\n";
    assert_eq!(reported("bad_code"), Report { text: text.to_string(), refused: true });
}

fn tasks(sheet: &Sheet) -> Vec<Task> {
    sheet.tasks().collect()
}

#[test]
fn every_refusal_has_words() {
    let sheet = read(&sample("refusals").0).unwrap();
    let all = tasks(&sheet);
    let words = |task: usize, number, details, words: &str| {
        assert_eq!(of_task(&sheet, all[task - 1], number, details), format!("refused: {words} (refusal {number})"));
    };
    words(8, 6, [1, 0], "row 1, column 0 of A, both counted from 0, is 0; every entry has to be finite");
    words(6, 7, [1, 0], "row 1, column 0 of direction 0, both counted from 0, is inf; every entry has to be finite");
    words(2, 8, [0, 0], "exponent 1 has to be finite, and is nan");
    words(8, 11, [0, 0], "expm is ported for orders from 2 on");
    words(8, 12, [0, 0], "the 1-norm that sets the halvings is not finite");
    words(5, 13, [0, 0], "LU refused a matrix on the way: a pivot was too small");
    words(8, 17, [84, 0], "84 halvings would be needed, and at most 64 are made");
    words(8, 99, [1, 2], "details 1 and 2");
    let one = Sheet { order: 1, matrix: vec![(-4.0f64).to_bits()], task: vec![1, 0], ..Sheet::default() };
    let text =
        "refused: A is the number -4; a logarithm needs one above 0, a root one that is not below 0 (refusal 10)";
    assert_eq!(of_task(&one, tasks(&one)[0], 10, [0, 0]), text);
}

#[test]
fn lines_of_another_sheet_are_found() {
    let (bytes, lines) = sample("shear");
    let fails = |lines: String, bytes: &[u8]| {
        let entry = move |_: &[u8], output: &mut [u8]| {
            output[..lines.len()].copy_from_slice(lines.as_bytes());
            lines.len()
        };
        let failure = run(&entry, "shear.sheet", bytes).unwrap_err();
        assert_eq!(
            failure.message,
            "sheet: shear.sheet: internal error: the library's lines are not those of this sheet"
        );
        assert_eq!(failure.status, 2);
    };
    fails(String::new(), &bytes);
    fails(lines.replace("1 ok", "2 ok"), &bytes);
    fails(lines.replace(" 4008000000000000", ""), &bytes);
    fails(lines.replace(" 4008000000000000", " 4008000000000000 0000000000000000"), &bytes);
    fails(lines.replace("4008", "x008"), &bytes);
    fails(format!("{lines}{lines}"), &bytes);
    fails("0 no 16 44 0\n".to_string(), &bytes);
    fails("0 no 16 44 0\n".to_string(), &sample("cut").0);
    fails("1 no 13 0\n".to_string(), &bytes);
}

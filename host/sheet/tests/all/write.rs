//! Texts written as sheets, and sheets shown as texts, with a stand-in for the entries.

use crate::random::Random;
use crate::standin::{port, sample_sheets, samples};
use entry::Sections;
use sheet::layout::{Refused, read};
use sheet::{Failure, show, write};
use std::fs;

fn fault(text: &str, message: &str) {
    let found = write::sheet(port().write, "pass.txt", text.as_bytes());
    assert_eq!(found, Err(Failure { status: 1, message: message.to_string() }), "{text}");
}

#[test]
fn accepted_samples_are_shown_and_written_back() {
    let mut accepted = 0;
    for (name, bytes, lines) in sample_sheets() {
        match show::show(port().write, &name, &bytes) {
            Ok(text) => {
                assert_eq!(write::sheet(port().write, &name, text.as_bytes()), Ok(bytes), "{name}");
                accepted += 1;
            }
            Err(failure) => assert!(failure.status == 1 && lines.starts_with("0 no "), "{name}: {failure:?}"),
        }
    }
    assert!(accepted >= 9, "{accepted}");
}

#[test]
fn sample_texts_are_written() {
    let text = |name: &str| fs::read(samples().join(name)).unwrap();
    let shear = fs::read(samples().join("shear.sheet")).unwrap();
    assert_eq!(write::sheet(port().write, "shear.txt", &text("shear.txt")), Ok(shear));
    let pass = write::sheet(port().write, "pass.txt", &text("pass.txt")).unwrap();
    let sheet = read(&pass).unwrap();
    assert_eq!((sheet.order, sheet.directions().count(), sheet.exponent.len()), (3, 2, 2));
}

/// Numbers keep their bits, those of NaNs among them.
#[test]
fn random_sheets_are_shown_and_written_back() {
    let mut random = Random(2);
    for number in 0..1_000 {
        let bytes = random.sheet();
        let text = show::show(port().write, "s", &bytes).unwrap();
        assert_eq!(write::sheet(port().write, "s", text.as_bytes()), Ok(bytes), "sheet {number}");
    }
}

#[test]
fn a_text_looks_like_this() {
    let bytes = sample_sheets().into_iter().find(|sample| sample.0 == "refusals").unwrap().1;
    let text = "\
order 2
0  0
0  0

direction  # direction 0
  1  0
inf  0

direction  # direction 1
1  0
0  1

exponent -1   # exponent 0
exponent nan  # exponent 1
exponent 0    # exponent 2

task powm 0          # task 1
task powm 1          # task 2
task powm 2          # task 3
task logm            # task 4
task sqrtm           # task 5
task frechet_expm 0  # task 6
task frechet_expm 1  # task 7
task expm            # task 8
";
    assert_eq!(show::show(port().write, "refusals", &bytes), Ok(text.to_string()));
}

const START: &str = "# a pass\norder 2\n1 1\n0 1\n";

#[test]
fn refusals_lead_to_lines() {
    let direction = "direction\n1 0\n0 1\n";
    fault(
        &format!("{START}{}task expm\n", direction.repeat(9)),
        "pass.txt:29: a sheet has at most 8 directions, and this is one more (refusal 16, byte 33)",
    );
    fault(
        &format!("{START}task expm\n{}", "exponent 1\n".repeat(10)),
        "pass.txt:14: a sheet has at most 8 exponents, and this is one more (refusal 16, byte 34)",
    );
    fault(
        &format!("{START}{}", "task expm\n".repeat(18)),
        "pass.txt:21: a sheet has at most 16 tasks, and this is one more (refusal 16, byte 35)",
    );
    fault(
        &format!("{START}exponent 1\n\n# no task\n"),
        "pass.txt:7: the text ends without a task, and a sheet has at least one (refusal 16, byte 43)",
    );
    // The leftmost byte of the sheet is named, not the first line of the text.
    fault(
        &format!("{START}task powm 0\n{}", direction.repeat(9)),
        "pass.txt:30: a sheet has at most 8 directions, and this is one more (refusal 16, byte 33)",
    );
}

#[test]
fn wrong_indices_lead_to_lines() {
    let task = |lines: &str, message: &str| fault(&format!("{START}{lines}"), message);
    let one = "exponents are numbered from 0, and there is 1";
    task("exponent 3\ntask powm 1\n", &format!("pass.txt:6: there is no exponent 1: {one} (refusal 16, byte 45)"));
    task(
        "exponent 3\ntask powm 0\ntask powm 256\n",
        &format!("pass.txt:7: there is no exponent 256: {one} (refusal 16, byte 47)"),
    );
    task(
        "task powm 99999999999999999999999\nexponent 3\n",
        &format!("pass.txt:5: there is no exponent 99999999999999999999999: {one} (refusal 16, byte 45)"),
    );
    task(
        "exponent 3\n\n\ntask frechet_sqrtm_sylvester 0\n",
        "pass.txt:8: there is no direction 0: directions are numbered from 0, and there is none (refusal 16, byte 45)",
    );
    task(
        "direction\n1 0\n0 1\ntask frechet_expm 2\ndirection\n1 0\n0 1\n",
        "pass.txt:8: there is no direction 2: directions are numbered from 0, and there are 2 (refusal 16, byte 101)",
    );
    task(
        "task expm\ntask cosm 1\n",
        "pass.txt:6: cosm takes no index: 1 stands where only 0 may stand (refusal 16, byte 39)",
    );
    task("task expm 300\n", "pass.txt:5: expm takes no index: 300 stands where only 0 may stand (refusal 16, byte 37)");
}

/// An entry that knows codes 0 to 9 only, and otherwise refuses A's length.
fn older(sections: &Sections, _: &mut [u8], why: &mut [u64; 3]) -> usize {
    *why = if sections.task[0] == 10 { [16, 68, 0] } else { [5, 3, 4] };
    0
}

#[test]
fn other_libraries_are_told_apart() {
    let text = |task: &str| format!("{START}direction\n1 0\n0 1\n{task}\n");
    let found = write::sheet(&older, "pass.txt", text("task frechet_sqrtm_sylvester 0").as_bytes()).unwrap_err();
    assert_eq!(
        found,
        Failure {
            status: 1,
            message: "pass.txt:8: the library has no frechet_sqrtm_sylvester (refusal 16, byte 68)".to_string()
        }
    );
    let found = write::sheet(&older, "pass.txt", text("task expm").as_bytes()).unwrap_err();
    assert_eq!(
        (found.status, found.message.contains("refused 5 with details 3 and 4")),
        (2, true),
        "{}",
        found.message
    );
}

/// An entry that changes the last byte.
fn careless(sections: &Sections, output: &mut [u8], why: &mut [u64; 3]) -> usize {
    let length = (port().write)(sections, output, why);
    output[length - 1] ^= 1;
    length
}

#[test]
fn a_sheet_that_is_written_back_otherwise_is_not_shown() {
    let bytes = fs::read(samples().join("shear.sheet")).unwrap();
    let found = show::show(&careless, "shear.sheet", &bytes).unwrap_err();
    assert_eq!((found.status, found.message.contains("internal error")), (2, true), "{}", found.message);
    let found = show::show(&older, "shear.sheet", &bytes).unwrap_err();
    assert_eq!((found.status, found.message.contains("internal error")), (2, true), "{}", found.message);
}

/// The bytes of shear.sheet with one of them changed.
fn changed(position: usize, byte: u8) -> Vec<u8> {
    let mut bytes = fs::read(samples().join("shear.sheet")).unwrap();
    bytes[position] = byte;
    bytes
}

#[test]
fn refused_sheets_are_put_in_words() {
    let refused = |bytes: &[u8], number, position, found: &str| {
        assert_eq!(read(bytes), Err(Refused { number, position, found: found.to_string() }));
        let message = format!("s: byte {position}: {found} (refusal {number})");
        assert_eq!(show::show(port().write, "s", bytes), Err(Failure { status: 1, message }));
    };
    refused(&[], 15, 0, "the sheet ends here, before the order");
    refused(&changed(0, 9), 16, 0, "the order is 9, and has to be from 1 to 8");
    refused(&changed(33, 9), 16, 33, "the number of directions is 9, and has to be from 0 to 8");
    refused(&changed(34, 255), 16, 34, "the number of exponents is 255, and has to be from 0 to 8");
    refused(&changed(43, 0), 16, 43, "the number of tasks is 0, and has to be from 1 to 16");
    refused(&changed(44, 11), 16, 44, "11 is no code of a function");
    refused(&changed(45, 1), 16, 45, "there is no exponent 1: exponents are numbered from 0, and there is 1");
    refused(&changed(44, 6), 16, 45, "there is no direction 0: directions are numbered from 0, and there is none");
    let mut none = changed(44, 0);
    none[45] = 7;
    refused(&none, 16, 45, "expm takes no index: 7 stands where only 0 may stand");
    let whole = changed(0, 2);
    let ends = [
        (9, "before a number of A"),
        (20, "within a number of A"),
        (33, "before the number of directions"),
        (34, "before the number of exponents"),
        (36, "within an exponent"),
        (43, "before the number of tasks"),
        (44, "before the code of task 1"),
        (45, "before the index of task 1"),
    ];
    for (length, place) in ends {
        refused(&whole[..length], 15, length, &format!("the sheet ends here, {place}"));
    }
    refused(&[&whole[..], &[0]].concat(), 15, 46, "the sheet goes on after its last task");
}

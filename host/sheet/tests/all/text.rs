//! Texts: what is read, and what is wrong at which line.

use sheet::text::{Fault, read};

fn fault(text: &str, line: usize, message: &str) {
    assert_eq!(read(text.as_bytes()), Err(Fault { line, message: message.to_string() }), "{text:?}");
}

const ALL: &str = "\
# all words
order 2 # the order

1 2
\t3   4\t
task frechet_expm 1
direction
0.5 0
0 0.5
exponent 3
direction # the second
# rows
5 6
7 8

task expm 0
exponent inf
task logm
task powm 1";

#[test]
fn every_word_is_read() {
    let text = read(ALL.as_bytes()).unwrap();
    let bits = |numbers: &[f64]| numbers.iter().map(|x| x.to_bits()).collect::<Vec<u64>>();
    assert_eq!(text.sheet.order, 2);
    assert_eq!(text.sheet.matrix, bits(&[1.0, 2.0, 3.0, 4.0]));
    assert_eq!(text.sheet.direction, bits(&[0.5, 0.0, 0.0, 0.5, 5.0, 6.0, 7.0, 8.0]));
    assert_eq!(text.sheet.exponent, bits(&[3.0, f64::INFINITY]));
    assert_eq!(text.sheet.task, [6, 1, 0, 0, 1, 0, 3, 1]);
    let tasks: Vec<usize> = text.tasks.iter().map(|task| task.line).collect();
    assert_eq!(
        (text.order, text.directions, text.exponents, tasks, text.last),
        (2, vec![7, 11], vec![10, 17], vec![6, 16, 18, 19], 19)
    );
}

#[test]
fn line_ends_and_the_mark_of_utf8_do_not_matter() {
    let text = read(ALL.as_bytes());
    assert_eq!(read(ALL.replace('\n', "\r\n").as_bytes()), text);
    assert_eq!(read(format!("\u{feff}{ALL}\n").as_bytes()), text);
    assert_eq!(read(format!("{}\r", ALL.replace('\n', "\r\n")).as_bytes()), text);
    assert_eq!(read(format!("\u{feff}{ALL}\n").replace('\n', "\r\n").as_bytes()), text);
}

#[test]
fn the_order_comes_first() {
    fault("", 1, "the text ends where order N is wanted: the order comes first");
    fault("# nothing\n\n# here\n", 3, "the text ends where order N is wanted: the order comes first");
    fault("\n1 2\n", 2, "found \"1\" where order N is wanted: the order comes first");
    fault("task expm\norder 1\n1\n", 1, "found \"task\" where order N is wanted: the order comes first");
    fault("order\n", 1, "order takes one whole number, and 0 are here");
    fault("order 2 2\n", 1, "order takes one whole number, and 2 are here");
    for order in ["0", "9", "300", "99999999999999999999999999"] {
        fault(
            &format!("order {order}\n1\n"),
            1,
            &format!("the order is {order}, and has to be from 1 to 8 (refusal 16, byte 0)"),
        );
    }
    for order in ["-1", "2.0", "two", "+2"] {
        fault(
            &format!("order {order}\n1\n"),
            1,
            &format!("{order:?} is no whole number: the order is one from 1 to 8"),
        );
    }
    fault("order 1\n1\ntask expm\norder 1\n", 4, "a second order: the first stands at line 1");
}

#[test]
fn rows_are_counted() {
    fault("order 2\n1 2\n3\n", 3, "this row of A has 1 number, and order 2 wants 2");
    fault("order 2\n1 2 3\n", 2, "this row of A has 3 numbers, and order 2 wants 2");
    fault("order 2\n1 2\n\n# no more\n", 4, "the text ends where a row of A is wanted: A has 1 of its 2 rows");
    fault("order 2\n1 2\ntask expm\n", 3, "found \"task\" where a row of A is wanted: A has 1 of its 2 rows");
    fault("order 2\n1 2\norder 2\n", 3, "found \"order\" where a row of A is wanted: A has 1 of its 2 rows");
    fault(
        "order 1\n1\ntask expm\ndirection\n",
        4,
        "the text ends where a row of direction 0 is wanted: direction 0 has 0 of its 1 rows",
    );
    fault(
        "order 1\n1\ndirection\n1\ndirection\nexponent 1\n",
        6,
        "found \"exponent\" where a row of direction 1 is wanted: direction 1 has 0 of its 1 rows",
    );
    fault(
        "order 1\n1\n2\n",
        3,
        "found \"2\" where direction, exponent or task is wanted: a matrix of order 1 has 1 row",
    );
    fault(
        "order 2\n1 2\n3 4\n5 6\n",
        4,
        "found \"5\" where direction, exponent or task is wanted: a matrix of order 2 has 2 rows",
    );
}

#[test]
fn numbers_are_looked_at_where_they_stand() {
    fault(
        "order 2\n1,5 2\n3 4\n",
        2,
        "\"1,5\" is no number: write decimals with a point, not a comma, and thousands without a separator",
    );
    fault(
        "order 1\n1\ndirection\n1e999\n",
        4,
        "\"1e999\" is beyond the largest number, 1.7976931348623157e308; infinity is inf",
    );
    fault("order 1\n1\n\nexponent NaN\n", 4, "\"NaN\" is no number: write nan, inf or -inf");
    fault("order 1\n1\u{a0}000\n", 2, "\"1\\u{a0}000\" is no number: write thousands without a separator");
}

#[test]
fn words_are_taken_as_they_are() {
    fault("order 1\n1\nexponents 3\n", 3, "found \"exponents\" where direction, exponent or task is wanted");
    fault("order 1\n1\nTask expm\n", 3, "found \"Task\" where direction, exponent or task is wanted");
    fault(
        "order 1\n1\ndirection 0\n1\n",
        3,
        "direction stands alone on its line: its rows follow on lines of their own",
    );
    fault("order 1\n1\nexponent\n3\n", 3, "exponent takes one number on its line, and 0 are here");
    fault("order 1\n1\nexponent 3 4\n", 3, "exponent takes one number on its line, and 2 are here");
    let long = "x".repeat(100);
    fault(
        &format!("order 1\n1\n{long}\n"),
        3,
        &format!("found {:?} .. where direction, exponent or task is wanted", &long[..40]),
    );
}

#[test]
fn tasks_have_a_function_and_an_index() {
    let task = |task: &str, message: &str| fault(&format!("order 1\n1\n# a task\n{task}\ntask expm\n"), 4, message);
    task("task", "task takes the name of a function, and none is here");
    task("task powm 0 0", "task takes a function and at most one index, and 3 words are here");
    task(
        "task exp",
        "\"exp\" is no function: there are expm, logm, sqrtm, powm, cosm, sinm, frechet_expm, frechet_logm, frechet_sqrtm, cond_expm, frechet_sqrtm_sylvester",
    );
    task("task powm", "powm takes the number of an exponent: task powm 0 for the first");
    task("task frechet_sqrtm", "frechet_sqrtm takes the number of a direction: task frechet_sqrtm 0 for the first");
    for index in ["-1", "0.0", "x", "+0"] {
        task(&format!("task powm {index}"), &format!("{index:?} is no index: a whole number from 0 on is wanted"));
    }
}

#[test]
fn other_encodings_are_named() {
    let message = "this is not UTF-8: save the text as UTF-8".to_string();
    assert_eq!(read(b"order 1\n# Gr\xf6\xdfe\n1\n"), Err(Fault { line: 2, message: message.clone() }));
    assert_eq!(read(b"\xff\xfeo\0r\0d\0e\0r\0"), Err(Fault { line: 1, message }));
}

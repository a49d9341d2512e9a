//! Numbers as text.

use crate::random::Random;
use sheet::numbers::{print, read, rows};

fn reads(field: &str, x: f64) {
    assert_eq!(read(field), Ok(x.to_bits()), "{field}");
}

fn refused(field: &str, part: &str) {
    let message = read(field).expect_err(field);
    assert!(message.contains(part), "{field}: {message}");
}

#[test]
fn decimals_are_read() {
    for (field, x) in [
        ("1", 1.0),
        ("-1.5", -1.5),
        ("+2", 2.0),
        (".5", 0.5),
        ("5.", 5.0),
        ("2e-3", 0.002),
        ("1.5E+03", 1500.0),
        ("007", 7.0),
    ] {
        reads(field, x);
    }
    reads("0", 0.0);
    reads("-0", -0.0);
    reads("-0.0e5", -0.0);
    reads("1e-400", 0.0);
    reads("4.9e-324", f64::from_bits(1));
    reads("0e99999999999999999999", 0.0);
}

#[test]
fn decimals_round_to_the_nearest_and_ties_to_even() {
    reads("9007199254740993", 9007199254740992.0);
    reads("9007199254740995", 9007199254740996.0);
    reads("9007199254740993.00000000000000000000000000000001", 9007199254740994.0);
    reads("0.1", 0.1);
    // The largest number, and the last decimal that rounds to it.
    reads("1.7976931348623157e308", f64::MAX);
    reads("1.7976931348623158e308", f64::MAX);
}

#[test]
fn words_and_bits_are_read() {
    reads("inf", f64::INFINITY);
    reads("-inf", f64::NEG_INFINITY);
    assert_eq!(read("nan"), Ok(0x7ff8000000000000));
    assert_eq!(read("0x7ff0000000000001"), Ok(0x7ff0000000000001));
    assert_eq!(read("0xFFF8000000ABCDEF"), Ok(0xfff8000000abcdef));
    assert_eq!(read("0x0000000000000000"), Ok(0));
}

#[test]
fn what_is_no_number_is_refused() {
    for field in ["1,5", "1,234.5", "1.234,5", "1,", ","] {
        refused(field, "write decimals with a point, not a comma, and thousands without a separator");
    }
    for field in ["1'000", "1_000", "1’000", "1\u{a0}000", "1\u{202f}000"] {
        refused(field, "write thousands without a separator");
    }
    refused("−1.5", "write the sign of a negative number as -");
    for field in ["NaN", "NAN", "Inf", "+inf", "-nan", "infinity", "-Infinity", "INF"] {
        refused(field, "write nan, inf or -inf");
    }
    for field in ["1e309", "-1e309", "1.7976931348623159e308", "1e99999999999999999999"] {
        refused(field, "is beyond the largest number, 1.7976931348623157e308");
    }
    for field in ["0x", "0x1", "0x3ff000000000000", "0x3ff00000000000000", "0x3ff000000000000g", "0x+ff0000000000000"] {
        refused(field, "after 0x exactly 16 hexadecimal digits are wanted");
    }
    for field in [
        "-",
        "+",
        ".",
        "-.",
        "e5",
        "1e",
        "1e+",
        "1e5.5",
        "1.2.3",
        "--1",
        "1-2",
        "0X3ff0000000000000",
        "-0x3ff0000000000000",
        "1/2",
        "x",
        "½",
    ] {
        refused(field, "wanted is a decimal such as -1.5 or 2e-3");
    }
}

#[test]
fn the_shortest_decimal_is_printed() {
    let table = [
        (1.0, "1"),
        (-2.5, "-2.5"),
        (0.1, "0.1"),
        (0.0, "0"),
        (-0.0, "-0"),
        (1e300, "1e300"),
        (1e15, "1000000000000000"),
        (1e16, "1e16"),
        (1e-7, "1e-7"),
        (5e-324, "5e-324"),
        (f64::MAX, "1.7976931348623157e308"),
        (f64::INFINITY, "inf"),
        (f64::NEG_INFINITY, "-inf"),
        (1.0 / 3.0, "0.3333333333333333"),
    ];
    for (x, text) in table {
        assert_eq!(print(x.to_bits()), text);
    }
    assert_eq!(print(0x7ff8000000000000), "nan");
    assert_eq!(print(0xfff8000000000000), "0xfff8000000000000");
    assert_eq!(print(0x7ff0000000000001), "0x7ff0000000000001");
}

#[test]
fn every_number_is_read_back() {
    let back = |bits: u64| assert_eq!(read(&print(bits)), Ok(bits), "{bits:016x}");
    let mut random = Random(1);
    const EXPONENT: u64 = 0x7ff0000000000000;
    for _ in 0..100_000 {
        let bits = random.bits();
        back(bits);
        // A NaN or infinity, a subnormal number or zero, and one with a short mantissa.
        back(bits | EXPONENT);
        back(bits & !EXPONENT);
        back(bits & 0xfffff00000000000);
    }
    for k in 0..64 {
        back(1 << k);
        back(!(1 << k));
        back((1 << k) - 1);
    }
}

#[test]
fn columns_are_aligned() {
    let numbers: Vec<u64> = [1.0, -0.25, 1e300, 10.0].map(f64::to_bits).to_vec();
    assert_eq!(rows(&numbers, 2, "  "), "      1  -0.25\n  1e300     10\n");
    assert_eq!(rows(&numbers[..1], 1, ""), "1\n");
}

//! The entries are declared alike in the Rattle source, in the header for C and in this package: names, order and types of their parameters.

const SOURCE: &str = include_str!("../../../crates/sheet_c/src/lib.rt");
const HEADER: &str = include_str!("../../include/axis.h");
const PACKAGE: &str = include_str!("../src/lib.rs");

/// A type of the source, and how C and Rust declare a parameter NAME of that type.
const TYPES: [(&str, &str, &str); 5] = [
    ("usize", "size_t NAME", "NAME: usize"),
    ("&[u8]", "const uint8_t *NAME, size_t NAME_length", "NAME: *const u8, NAME_length: usize"),
    ("&mut [u8]", "uint8_t *NAME, size_t NAME_length", "NAME: *mut u8, NAME_length: usize"),
    ("&[u64]", "const uint64_t *NAME, size_t NAME_length", "NAME: *const u64, NAME_length: usize"),
    ("&mut [u64; 3]", "uint64_t NAME[3]", "NAME: *mut u64"),
];

/// On one line, with no comma after the last parameter.
fn flat(text: &str) -> String {
    text.split_whitespace().collect::<Vec<_>>().join(" ").replace("( ", "(").replace(", )", ")")
}

/// What stands after each `start` in the text, up to `end`.
fn between(text: &str, start: &str, end: &str) -> Vec<String> {
    flat(text).split(start).skip(1).map(|rest| rest.split_once(end).unwrap().0.to_string()).collect()
}

/// An entry of the source as another language declares it. The source calls an output `out`.
fn declared(entry: &str, parameter_of: impl Fn(&(&'static str, &'static str, &'static str)) -> &'static str) -> String {
    let (name, parameters) = entry.split_once('(').unwrap();
    let parameter = |text: &str| {
        let (name, kind) = text.split_once(": ").unwrap();
        let found = TYPES.iter().find(|found| found.0 == kind).unwrap_or_else(|| panic!("no type is known for {text}"));
        parameter_of(found).replace("NAME", if name == "out" { "output" } else { name })
    };
    format!("{name}({})", parameters.split(", ").map(parameter).collect::<Vec<_>>().join(", "))
}

fn entries() -> Vec<String> {
    between(SOURCE, "#[unsafe(no_mangle)] pub extern \"C\" fn ", ") -> usize ensures")
}

#[test]
fn the_source_has_two_entries() {
    let names: Vec<String> = entries().iter().map(|entry| entry.split('(').next().unwrap().to_string()).collect();
    assert_eq!(names, ["axis_sheet", "axis_write"]);
}

#[test]
fn the_header_declares_them_alike() {
    let expected: Vec<String> = entries().iter().map(|entry| declared(entry, |kind| kind.1)).collect();
    let found: Vec<String> = between(HEADER, "size_t axis_", ";").iter().map(|rest| format!("axis_{rest}")).collect();
    assert_eq!(found, expected);
}

#[test]
fn the_package_declares_them_alike() {
    let expected: Vec<String> = entries().iter().map(|entry| declared(entry, |kind| kind.2)).collect();
    let found: Vec<String> =
        between(PACKAGE, "fn axis_", ") -> usize;").iter().map(|rest| format!("axis_{rest})")).collect();
    assert_eq!(found, expected);
}

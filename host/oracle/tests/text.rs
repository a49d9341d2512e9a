//! The text that is compiled is the source's text.

use std::fs;
use std::path::Path;

const SOURCE: &str = env!("ORACLE_SOURCE");

const COMPILED: [(&str, &[u8]); 4] = [
    ("lu--partial_piv", include_bytes!(concat!(env!("OUT_DIR"), "/partial_piv.rs"))),
    ("utils--kronecker", include_bytes!(concat!(env!("OUT_DIR"), "/kronecker.rs"))),
    ("utils--matfun--functions", include_bytes!(concat!(env!("OUT_DIR"), "/functions.rs"))),
    ("utils--matfun--types", include_bytes!(concat!(env!("OUT_DIR"), "/types.rs"))),
];

fn kept(name: &str) -> String {
    format!("src--crates--oxiblas-lapack--src--{name}.rs.txt")
}

#[test]
fn the_compiled_text_is_the_source() {
    for (name, compiled) in COMPILED {
        let source = fs::read(Path::new(SOURCE).join(kept(name))).unwrap();
        assert!(source == compiled, "{name}");
    }
}

/// The index that comes with the source gives each file's count of lines, the empty one after the last newline included.
#[test]
fn the_lines_are_those_of_the_index() {
    let index = fs::read_to_string(Path::new(SOURCE).join("src--INDEX.md")).unwrap();
    for (name, compiled) in COMPILED {
        let line = index.lines().find(|l| l.contains(&kept(name))).unwrap();
        let count = compiled.split(|&b| b == b'\n').count();
        assert!(line.ends_with(&format!("| {count} |")), "{name}: {count} lines, but {line}");
    }
}

/// The module tree compiles those copies and no other files.
#[test]
fn the_tree_names_the_copies() {
    let tree = include_str!(concat!(env!("OUT_DIR"), "/tree.rs"));
    let paths: Vec<&str> = tree.lines().filter(|l| l.starts_with("#[path")).collect();
    let names = ["partial_piv", "kronecker", "types", "functions"];
    let wanted: Vec<String> = names.iter().map(|n| format!("#[path = \"{}/{n}.rs\"]", env!("OUT_DIR"))).collect();
    assert_eq!(paths, wanted);
}

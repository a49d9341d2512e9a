//! Copies the source's files, byte for byte, from where they are kept into OUT_DIR, and writes the module tree that compiles them.
//! The directory is FIGPUMICE_SOURCE, or else shared/docs/src beside the repository.

use std::path::{Path, PathBuf};
use std::{env, fs};

/// The name under which a file is kept, and its name here.
const FILES: [(&str, &str); 4] = [
    ("src--crates--oxiblas-lapack--src--lu--partial_piv.rs.txt", "partial_piv.rs"),
    ("src--crates--oxiblas-lapack--src--utils--kronecker.rs.txt", "kronecker.rs"),
    ("src--crates--oxiblas-lapack--src--utils--matfun--functions.rs.txt", "functions.rs"),
    ("src--crates--oxiblas-lapack--src--utils--matfun--types.rs.txt", "types.rs"),
];

fn source_directory() -> PathBuf {
    println!("cargo::rerun-if-env-changed=FIGPUMICE_SOURCE");
    match env::var_os("FIGPUMICE_SOURCE") {
        Some(directory) => PathBuf::from(directory),
        None => Path::new(&env::var_os("CARGO_MANIFEST_DIR").unwrap()).join("../../../shared/docs/src"),
    }
}

fn main() {
    let directory = source_directory();
    let directory = fs::canonicalize(&directory).unwrap_or_else(|e| {
        panic!("{}: {e}; set FIGPUMICE_SOURCE to the directory of the source's files", directory.display())
    });
    let out = PathBuf::from(env::var_os("OUT_DIR").unwrap());
    for (kept, name) in FILES {
        let from = directory.join(kept);
        println!("cargo::rerun-if-changed={}", from.display());
        let text = fs::read(&from).unwrap_or_else(|e| panic!("{}: {e}", from.display()));
        fs::write(out.join(name), text).unwrap();
    }
    println!("cargo::rustc-env=ORACLE_SOURCE={}", directory.display());
    // The source names a feature of its own crate.
    println!("cargo::rustc-check-cfg=cfg(feature, values(\"parallel\"))");

    let module = |name: &str| {
        let file = out.join(format!("{name}.rs"));
        format!("#[allow(warnings, clippy::all)]\n#[path = {:?}]\npub mod {name};\n", file.to_str().unwrap())
    };
    let tree = format!(
        "pub mod lu {{\n{}pub use partial_piv::{{Lu, LuError}};\n}}\n\
         pub mod utils {{\n{}pub mod matfun {{\n{}{}}}\n}}\n",
        module("partial_piv"),
        module("kronecker"),
        module("types"),
        module("functions")
    );
    fs::write(out.join("tree.rs"), tree).unwrap();
}

//! Links the port's static library where it is there, and sets the configuration `port`, which packages that depend on this one learn as the variable
//! DEP_SHEET_PORT of their build. The library is the file that FIGPUMICE_STATICLIB names, or else target/staticlib/libsheet.a of the repository, which
//! `tools/static-libraries sheet` makes.

use std::env;
use std::path::{Path, PathBuf};

fn library() -> PathBuf {
    println!("cargo::rerun-if-env-changed=FIGPUMICE_STATICLIB");
    match env::var_os("FIGPUMICE_STATICLIB") {
        Some(file) => PathBuf::from(file),
        None => Path::new(&env::var_os("CARGO_MANIFEST_DIR").unwrap()).join("../../target/staticlib/libsheet.a"),
    }
}

fn main() {
    println!("cargo::rustc-check-cfg=cfg(port)");
    let library = library();
    println!("cargo::rerun-if-changed={}", library.display());
    let Ok(library) = library.canonicalize() else {
        // A library that is named must be there.
        assert!(env::var_os("FIGPUMICE_STATICLIB").is_none(), "{}: not there", library.display());
        println!("cargo::warning=built without the port: no static library; `tools/static-libraries sheet` makes it");
        return;
    };
    let name = library.file_stem().unwrap().to_str().unwrap().trim_start_matches("lib");
    println!("cargo::rustc-link-search=native={}", library.parent().unwrap().display());
    println!("cargo::rustc-link-lib=static={name}");
    println!("cargo::rustc-cfg=port");
    println!("cargo::metadata=port=1");
}

//! Links the libraries of the port's public calls where they are there, and sets the configurations `entries` (f64) and `entries32` (f32); and those of
//! two steps inside them, `kernels` and `kernels32`. They are libhost_entries.a, libhost_entries32.a, libhost_kernels.a and libhost_kernels32.a in
//! target/staticlib of the repository, which `tools/static-libraries` makes.

use std::env;
use std::path::Path;

const LIBRARIES: [(&str, &str); 4] = [
    ("host_entries", "entries"),
    ("host_entries32", "entries32"),
    ("host_kernels", "kernels"),
    ("host_kernels32", "kernels32"),
];

fn main() {
    let folder = Path::new(&env::var_os("CARGO_MANIFEST_DIR").unwrap()).join("../../target/staticlib");
    for (library, configuration) in LIBRARIES {
        println!("cargo::rustc-check-cfg=cfg({configuration})");
        let file = folder.join(format!("lib{library}.a"));
        println!("cargo::rerun-if-changed={}", file.display());
        if !file.exists() {
            println!("cargo::warning=built without {library}; `tools/static-libraries {library}` makes it");
            continue;
        }
        println!("cargo::rustc-link-search=native={}", folder.canonicalize().unwrap().display());
        println!("cargo::rustc-link-lib=static={library}");
        println!("cargo::rustc-cfg={configuration}");
    }
}

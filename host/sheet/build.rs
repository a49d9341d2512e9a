//! Sets the configuration `port` where `entry` was built with the port's static library.

fn main() {
    println!("cargo::rustc-check-cfg=cfg(port)");
    if std::env::var_os("DEP_SHEET_PORT").is_some() {
        println!("cargo::rustc-cfg=port");
    }
}

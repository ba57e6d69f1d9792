//! Notes which compiler the Rust side is built with.

use std::{env, process::Command};

fn main() {
    println!("cargo:rerun-if-changed=build.rs");
    let compiler = env::var("RUSTC").unwrap_or_else(|_| "rustc".into());
    let version = Command::new(compiler).arg("--version").output();
    let version = version.map_or_else(|_| Vec::new(), |output| output.stdout);
    let version = String::from_utf8_lossy(&version).trim().to_string();
    println!("cargo:rustc-env=COMPILER={version}");
    let level = env::var("OPT_LEVEL").unwrap_or_default();
    println!("cargo:rustc-env=LEVEL={level}");
}

//! Takes the archive of the proved crate `uplink` for this computer.

use std::{
    env,
    path::{Path, PathBuf},
    process::{self, Command},
};

fn main() {
    let here = PathBuf::from(env::var_os("CARGO_MANIFEST_DIR").expect("cargo sets it"));
    let out = PathBuf::from(env::var_os("OUT_DIR").expect("cargo sets it"));
    let root = here.ancestors().nth(2).expect("it lies in oracle/proved");
    println!("cargo:rerun-if-changed=build.rs");
    for part in [
        "crates.txt",
        "crates",
        "tools/native_archive",
        "tools/module.py",
    ] {
        println!("cargo:rerun-if-changed={}", root.join(part).display());
    }
    if let Err(message) = take_archive(root, &out.join("libuplink.a")) {
        eprintln!("\nThe proved library isn't there: {message}");
        process::exit(1);
    }
    println!("cargo:rustc-link-search=native={}", out.display());
    println!("cargo:rustc-link-lib=static=uplink");
}

fn take_archive(root: &Path, archive: &Path) -> Result<(), String> {
    if !root.join("crates/uplink/src/lib.rt").exists() {
        return Err(format!("{} has no crates/uplink.", root.display()));
    }
    if Command::new("rt").arg("doc").output().is_err() {
        return Err(
            "`rt` is not on the PATH. Install the Rattle toolchain, then build again.".into(),
        );
    }
    let made = Command::new(root.join("tools/native_archive"))
        .arg("uplink")
        .arg(archive)
        .current_dir(root)
        .status();
    match made {
        Ok(status) if status.success() => Ok(()),
        Ok(status) => Err(format!(
            "tools/native_archive ended with {status}. Run `rt check` in {}/crates/uplink until it passes, then build again.",
            root.display()
        )),
        Err(error) => Err(format!(
            "tools/native_archive can't be started ({error}). It needs python3."
        )),
    }
}

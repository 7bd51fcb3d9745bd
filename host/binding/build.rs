//! Finds `libcapi.a`, the proved library: in the directory that `URREZKALU_LIBRARY` names, or where `make library` writes it.

use std::env;
use std::path::PathBuf;

fn main() {
    println!("cargo::rerun-if-env-changed=URREZKALU_LIBRARY");
    let directory = match env::var_os("URREZKALU_LIBRARY") {
        Some(named) => PathBuf::from(named),
        None => PathBuf::from(env!("CARGO_MANIFEST_DIR")).join("../../target/staticlib"),
    };
    // The linker is not run where this script is, and would look elsewhere.
    if directory.is_relative() {
        println!("cargo::error=URREZKALU_LIBRARY is {}: it has to be an absolute path", directory.display());
        return;
    }
    let archive = directory.join("libcapi.a");
    println!("cargo::rerun-if-changed={}", archive.display());
    if !archive.is_file() {
        println!("cargo::error={} is missing: run `make library` at the top of the repository", archive.display());
        return;
    }
    println!("cargo::rustc-link-search=native={}", directory.display());
    println!("cargo::rustc-link-lib=static=capi");
}

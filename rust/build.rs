//! Links libtopjeska.a, from the folder that TOPJESKA_LIB_DIR names or from where `tools/library` writes it.

use std::path::PathBuf;
use std::{env, process};

fn main() {
    println!("cargo:rerun-if-env-changed=TOPJESKA_LIB_DIR");
    let usual = || PathBuf::from(env!("CARGO_MANIFEST_DIR")).join("../target/staticlib");
    let named = env::var_os("TOPJESKA_LIB_DIR").filter(|named| !named.is_empty());
    let folder = named.map_or_else(usual, PathBuf::from);
    if folder.is_relative() {
        // Cargo runs this in the crate's folder, whatever folder the caller meant it from.
        eprintln!(
            "TOPJESKA_LIB_DIR is the relative path '{}': for cargo it must begin with /",
            folder.display()
        );
        process::exit(1);
    }
    let library = folder.join("libtopjeska.a");
    println!("cargo:rerun-if-changed={}", library.display());
    if !library.is_file() {
        println!(
            "cargo:warning={} is missing: `tools/library` writes it, TOPJESKA_LIB_DIR names another folder",
            library.display()
        );
    }
    println!("cargo:rustc-link-search=native={}", folder.display());
    println!("cargo:rustc-link-lib=static=topjeska");
}

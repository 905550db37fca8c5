//! Links the static library of the Rattle code, which `make library` writes; says so where it is missing.
use std::path::Path;

fn main() {
    let here = std::env::var("CARGO_MANIFEST_DIR").expect("set by cargo");
    let root = Path::new(&here).join("../..").canonicalize().expect("the package is a folder of the repository");
    let folder = root.join("target/staticlib");
    let library = folder.join("libkiban_c.a");
    println!("cargo::rerun-if-changed={}", library.display());
    if !library.is_file() {
        println!("cargo::error={} is missing: run `make library` in the repository's root", library.display());
    }
    println!("cargo::rustc-link-search=native={}", folder.display());
    println!("cargo::rustc-link-lib=static=kiban_c");
}

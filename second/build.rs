//! Links the proved archives.

fn main() {
    let here = std::env::var("CARGO_MANIFEST_DIR").expect("cargo sets it");
    let folder = format!("{here}/../target/staticlib");
    println!("cargo:rustc-link-search=native={folder}");
    for name in ["telephone", "cells", "trace"] {
        println!("cargo:rustc-link-lib=static={name}");
        println!("cargo:rerun-if-changed={folder}/lib{name}.a");
    }
    println!("cargo:rerun-if-changed=build.rs");
}

//! Links jobs under C names, a static library that `tools/native` builds in the repository's `target/`, and with its feature FreeType's routines, which
//! `tools/freetype/library` builds below it.

use std::{
    env,
    path::{Path, PathBuf},
};

/// Tells cargo where the libraries are.
fn main() {
    let package = env::var("CARGO_MANIFEST_DIR").expect("cargo sets CARGO_MANIFEST_DIR");
    let target = PathBuf::from(package).join("../../target");
    link(&target, "jobs");
    if env::var_os("CARGO_FEATURE_FREETYPE").is_some() {
        link(&target.join("freetype"), "fit");
    }
}

/// Links a static library of a folder.
fn link(folder: &Path, name: &str) {
    let library = folder.join(format!("lib{name}.a"));
    println!("cargo:rerun-if-changed={}", library.display());
    println!("cargo:rustc-link-search=native={}", folder.display());
    println!("cargo:rustc-link-lib=static={name}");
}

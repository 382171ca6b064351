//! Links `libkhsaemudol.a`, which `tools/library` builds in the repository's `target/`.

use std::{env, path::PathBuf};

/// Tells cargo where the library is.
fn main() {
    let package = env::var("CARGO_MANIFEST_DIR").expect("cargo sets CARGO_MANIFEST_DIR");
    let target = PathBuf::from(package).join("../../target");
    let library = target.join("libkhsaemudol.a");
    println!("cargo:rerun-if-changed={}", library.display());
    println!("cargo:rustc-link-search=native={}", target.display());
    println!("cargo:rustc-link-lib=static=khsaemudol");
}

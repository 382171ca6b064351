//! Links `libkhsaemudol.a`, from the folder that `KHS_LIB_DIR` names or else the repository's `target/`.

use std::{env, path::PathBuf};

/// Tells cargo where the library is, or its user how to say so.
fn main() {
    println!("cargo:rerun-if-env-changed=KHS_LIB_DIR");
    let folder = env::var_os("KHS_LIB_DIR").map_or_else(target, PathBuf::from);
    let library = folder.join("libkhsaemudol.a");
    if !library.is_file() {
        println!(
            "cargo:warning={} is not there: set KHS_LIB_DIR to the folder that has libkhsaemudol.a for the target, by its whole path",
            library.display()
        );
    }
    println!("cargo:rerun-if-changed={}", library.display());
    println!("cargo:rustc-link-search=native={}", folder.display());
    println!("cargo:rustc-link-lib=static=khsaemudol");
}

/// The folder where the repository's commands put the library.
fn target() -> PathBuf {
    let package = env::var_os("CARGO_MANIFEST_DIR").expect("cargo sets CARGO_MANIFEST_DIR");
    PathBuf::from(package).join("../../target")
}

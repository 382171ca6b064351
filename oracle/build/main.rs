//! Takes the given Rust out of the skrifa sources, with the mechanical edits of `edits.rs` and no other.
//!
//! The sources are found by `KHS_SKRIFA_SRC`, else beside the checkout.

mod edits;
mod instrument;
mod take;
mod tokens;

use std::{env, fs, path::PathBuf};

/// The folder inside the sources that all given files stand in.
const TREE: &str = "src/outline/autohint";

/// Writes what is taken from each given file into the folder that the crate includes it from.
fn main() {
    println!("cargo:rerun-if-env-changed=KHS_SKRIFA_SRC");
    println!("cargo:rerun-if-changed=build");
    let sources = sources();
    let out = PathBuf::from(env::var("OUT_DIR").expect("cargo sets OUT_DIR"));
    let counting = env::var_os("CARGO_FEATURE_COUNT").is_some();
    let mut branches = Vec::new();
    for taken in edits::TAKEN {
        let path = sources.join(TREE).join(taken.file);
        println!("cargo:rerun-if-changed={}", path.display());
        let text = fs::read_to_string(&path)
            .unwrap_or_else(|e| panic!("{}: {e}; set KHS_SKRIFA_SRC", path.display()));
        let mut code = edits::apply(taken.file, take::take(taken, &text));
        if counting {
            code = instrument::instrument(taken, &text, &code, &mut branches);
        }
        fs::write(out.join(taken.out), code).expect("OUT_DIR is writable");
    }
    fs::write(out.join("branches.rs"), instrument::table(&branches)).expect("OUT_DIR is writable");
}

/// Where the skrifa sources are.
fn sources() -> PathBuf {
    if let Some(path) = env::var_os("KHS_SKRIFA_SRC") {
        return PathBuf::from(path);
    }
    let package = env::var("CARGO_MANIFEST_DIR").expect("cargo sets CARGO_MANIFEST_DIR");
    PathBuf::from(package).join("../../shared/docs/src")
}

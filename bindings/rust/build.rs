//! Finds the proved static library where the feature `machine` asks for it.
use std::path::PathBuf;

fn main() {
    println!("cargo:rerun-if-env-changed=FRAMED_LIB_DIR");
    if std::env::var_os("CARGO_FEATURE_MACHINE").is_none() {
        return;
    }
    let dir = std::env::var_os("FRAMED_LIB_DIR").map(PathBuf::from).unwrap_or_else(|| {
        PathBuf::from(env!("CARGO_MANIFEST_DIR")).join("../../target/staticlib")
    });
    let archive = dir.join("libframed_c.a");
    println!("cargo:rerun-if-changed={}", archive.display());
    if !archive.exists() {
        panic!(
            "{} is not there: run `make library` at the top of the repository, or build with \
             --no-default-features for the plain implementation alone",
            archive.display()
        );
    }
    println!("cargo:rustc-link-search=native={}", dir.display());
    println!("cargo:rustc-link-lib=static=framed_c");
}

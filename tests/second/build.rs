//! Tells where the C library is, for the one program that is linked with it.

use std::env;
use std::path::PathBuf;

fn main() {
    println!("cargo::rerun-if-changed=build.rs");
    if env::var_os("CARGO_FEATURE_ARCHIVE").is_none() {
        return;
    }
    println!("cargo::rerun-if-env-changed=INGR_LIB_DIR");
    let beside = || PathBuf::from(concat!(env!("CARGO_MANIFEST_DIR"), "/../../target/c"));
    let dir = env::var_os("INGR_LIB_DIR").map_or_else(beside, PathBuf::from);
    println!("cargo::rustc-link-search=native={}", dir.display());
    // A library that was built anew is linked anew.
    println!("cargo::rerun-if-changed={}", dir.join("libingr.a").display());
}

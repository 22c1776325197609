//! Links libgelvomas.a, which `tools/build gelvomas` writes.

use std::path::PathBuf;

fn main() {
    println!("cargo:rerun-if-env-changed=STATICLIB_DIR");
    let here = PathBuf::from(std::env::var("CARGO_MANIFEST_DIR").unwrap_or_default());
    let folder = match std::env::var("STATICLIB_DIR") {
        Ok(given) => PathBuf::from(given),
        Err(_) => here.join("../target/staticlib"),
    };
    let archive = folder.join("libgelvomas.a");
    println!("cargo:rerun-if-changed={}", archive.display());
    if !archive.exists() {
        println!(
            "cargo::error={} is missing: run `tools/build gelvomas` in the repository's root first",
            archive.display()
        );
        return;
    }
    println!("cargo:rustc-link-search=native={}", folder.display());
    println!("cargo:rustc-link-lib=static=gelvomas");
}

//! Links the proved library, which `tools/build exports` writes to target/staticlib of the repository.
use std::path::Path;

fn main() {
    let folder = Path::new(env!("CARGO_MANIFEST_DIR")).join("../target/staticlib");
    let archive = folder.join("libexports.a");
    println!("cargo:rerun-if-changed={}", archive.display());
    println!("cargo:rerun-if-changed=build.rs");
    if !archive.is_file() {
        println!("cargo::error=the proved library is missing: run `tools/build exports` in the folder above, which writes {}", archive.display());
        return;
    }
    println!("cargo:rustc-link-search=native={}", folder.display());
    println!("cargo:rustc-link-lib=static=exports");
}

//! Links the archive that `make` writes, which is the one that is installed.
use std::path::Path;

fn main() {
    let package = std::env::var("CARGO_MANIFEST_DIR").unwrap();
    let repository = Path::new(&package).ancestors().find(|folder| folder.join("crates.txt").exists());
    let folder = repository.expect("a folder above has crates.txt").join("target/lib");
    let archive = folder.join("libvejgodat.a");
    assert!(archive.exists(), "{} is missing: run 'make'", archive.display());
    println!("cargo:rerun-if-changed={}", archive.display());
    println!("cargo:rustc-link-search=native={}", folder.display());
    println!("cargo:rustc-link-lib=static=vejgodat");
}

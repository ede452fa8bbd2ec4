//! Links the archive that `embed/library` writes.

use std::path::PathBuf;

fn main() {
    let here = PathBuf::from(std::env::var("CARGO_MANIFEST_DIR").expect("cargo names the folder"));
    let folder = match std::env::var("SOLGAVERNA_LIB") {
        Ok(folder) => PathBuf::from(folder),
        Err(_) => here.join("../../target/staticlib"),
    };
    println!("cargo:rerun-if-env-changed=SOLGAVERNA_LIB");
    let archive = folder.join("libsolgaverna.a");
    println!("cargo:rerun-if-changed={}", archive.display());
    if !archive.exists() {
        panic!("{} is missing: run embed/library first", archive.display());
    }
    println!("cargo:rustc-link-search=native={}", folder.display());
    println!("cargo:rustc-link-lib=static=solgaverna");
}

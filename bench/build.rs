//! Links the archive of the crate `timing`.

fn main() {
    let here = std::env::var("CARGO_MANIFEST_DIR").expect("cargo names the folder");
    println!("cargo:rustc-link-search=native={here}/../target/staticlib");
    println!("cargo:rustc-link-lib=static=timing");
    println!("cargo:rerun-if-changed={here}/../target/staticlib/libtiming.a");
}

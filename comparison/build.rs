//! Links the proved library, which `bindings/staticlib` makes.

use std::path::PathBuf;

fn main() {
    let root = PathBuf::from(std::env::var("CARGO_MANIFEST_DIR").expect("cargo sets it"));
    let folder = root.join("../target/staticlib");
    let library = folder.join("libgivuntha.a");
    if !library.exists() {
        panic!("{} is missing: run bindings/staticlib", library.display());
    }
    println!("cargo:rerun-if-changed={}", library.display());
    println!("cargo:rustc-link-search=native={}", folder.display());
    println!("cargo:rustc-link-lib=static=givuntha");
}

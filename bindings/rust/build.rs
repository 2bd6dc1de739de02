//! Links the proved library, which `bindings/staticlib` makes.

use std::env;
use std::path::PathBuf;
use std::process::exit;

fn main() {
    println!("cargo:rerun-if-env-changed=GIVUNTHA_LIB");
    let folder = folder();
    let library = folder.join("libgivuntha.a");
    println!("cargo:rerun-if-changed={}", library.display());
    // The linker runs in another folder, so a relative path would not do.
    let Ok(folder) = folder.canonicalize().and_then(|folder| library.metadata().map(|_| folder)) else {
        eprintln!("error: there is no library at {}", library.display());
        eprintln!("`bindings/staticlib` at the root of the repository makes it;");
        eprintln!("GIVUNTHA_LIB may name another folder that holds libgivuntha.a");
        exit(1);
    };
    println!("cargo:rustc-link-search=native={}", folder.display());
    println!("cargo:rustc-link-lib=static=givuntha");
}

fn folder() -> PathBuf {
    match env::var_os("GIVUNTHA_LIB") {
        Some(folder) => PathBuf::from(folder),
        None => PathBuf::from("../../target/staticlib"),
    }
}

//! Links the proved library into the program, and into nothing else: the
//! plain implementation and its tests build without it.

use std::env;
use std::path::PathBuf;

fn main() {
    println!("cargo:rerun-if-env-changed=JORUMDELL_LIBRARY");
    let library = match env::var_os("JORUMDELL_LIBRARY") {
        Some(path) => PathBuf::from(path),
        None => default_library(),
    };
    println!("cargo:rerun-if-changed={}", library.display());
    println!("cargo:rustc-link-arg-bins={}", library.display());
}

fn default_library() -> PathBuf {
    let here = env::var_os("CARGO_MANIFEST_DIR").expect("cargo names the folder of the package");
    PathBuf::from(here).join("../crates/exports/out/libexports.a")
}

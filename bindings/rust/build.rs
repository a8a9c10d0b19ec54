//! Links the proved calls: `tools/archive` writes them below the repository's
//! `target`.

use std::env;
use std::path::PathBuf;

fn main() {
    let package = env::var_os("CARGO_MANIFEST_DIR").expect("cargo says where the package is");
    let folder = PathBuf::from(package).join("../../target/staticlib");
    let library = folder.join("libconsistency.a");
    println!("cargo:rerun-if-changed={}", library.display());
    if !library.exists() {
        panic!("there is no target/staticlib/libconsistency.a: `tools/archive` writes it");
    }
    println!("cargo:rustc-link-search=native={}", folder.display());
    println!("cargo:rustc-link-lib=static=consistency");
}

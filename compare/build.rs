//! Says where the static library of the proved crate `capi` is, for the
//! targets that link it (see `src/capi.rs`).

use std::{env, path::Path};

fn main() {
    println!("cargo:rerun-if-changed=build.rs");
    if env::var_os("CARGO_FEATURE_PROVED").is_none() {
        return;
    }
    let package = env::var("CARGO_MANIFEST_DIR").expect("cargo names the package's folder");
    let folder = Path::new(&package).join("../target/staticlib");
    let library = folder.join("libcapi.a");
    if !library.is_file() {
        println!("cargo:warning=no libcapi.a: run `tools/build capi` in the repository first");
    }
    println!("cargo:rustc-link-search=native={}", folder.display());
    println!("cargo:rerun-if-changed={}", library.display());
}

//! Links libdekvoz.a, from the folder that DEKVOZ_LIB_DIR names or from ../../target/lib, where bindings/archive puts it.

use std::path::PathBuf;
use std::{env, process};

fn main() {
    println!("cargo:rerun-if-env-changed=DEKVOZ_LIB_DIR");
    let named = env::var_os("DEKVOZ_LIB_DIR").map(PathBuf::from);
    let folder = named.unwrap_or_else(|| {
        let here = env::var_os("CARGO_MANIFEST_DIR").map_or_else(PathBuf::new, PathBuf::from);
        here.join("../../target/lib")
    });
    let archive = folder.join("libdekvoz.a");
    if !archive.is_file() {
        eprintln!("no {}", archive.display());
        eprintln!("bindings/archive in the repository's folder makes it; DEKVOZ_LIB_DIR names another folder.");
        process::exit(1);
    }
    println!("cargo:rerun-if-changed={}", archive.display());
    println!("cargo:rustc-link-search=native={}", folder.display());
    println!("cargo:rustc-link-lib=static=dekvoz");
}

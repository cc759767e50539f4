//! Links librstar.a from the folder RSTAR_LIB_DIR, or from out/library of this repository.

use std::env;
use std::path::PathBuf;

fn main() {
    println!("cargo:rerun-if-env-changed=RSTAR_LIB_DIR");
    let folder = match env::var_os("RSTAR_LIB_DIR") {
        Some(folder) => PathBuf::from(folder),
        None => PathBuf::from(env!("CARGO_MANIFEST_DIR")).join("../../out/library"),
    };
    let archive = folder.join("librstar.a");
    println!("cargo:rerun-if-changed={}", archive.display());
    if !archive.exists() {
        panic!("there is no {}: run scripts/build_library.sh, or set RSTAR_LIB_DIR", archive.display());
    }
    println!("cargo:rustc-link-search=native={}", folder.display());
    println!("cargo:rustc-link-lib=static=rstar");
}

//! Links the static library of the boundary. It stands in the folder out/ of its
//! crate, crates/boundary, or in the folder that BOUNDARY_LIB_DIR names.

use std::env;
use std::path::PathBuf;

fn main() {
    println!("cargo:rerun-if-env-changed=BOUNDARY_LIB_DIR");
    let folder = match env::var_os("BOUNDARY_LIB_DIR") {
        Some(folder) => PathBuf::from(folder),
        None => {
            let here = env::var_os("CARGO_MANIFEST_DIR").expect("cargo names the package's folder");
            PathBuf::from(here).join("..").join("crates").join("boundary").join("out")
        }
    };
    let archive = folder.join("libboundary.a");
    println!("cargo:rerun-if-changed={}", archive.display());
    println!("cargo:rustc-link-search=native={}", folder.display());
    println!("cargo:rustc-link-lib=static=boundary");
}

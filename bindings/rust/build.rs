//! Finds the proved library, `libdoor.a`: in RINDOVESH_LIB_DIR, or else where the repository's
//! build (tests/library.sh) puts it.

use std::env;
use std::path::PathBuf;

fn main() {
    let package = PathBuf::from(env::var_os("CARGO_MANIFEST_DIR").expect("set by cargo"));
    let folder = match env::var_os("RINDOVESH_LIB_DIR") {
        Some(folder) => PathBuf::from(folder),
        None => package.join("../../target/staticlib"),
    };
    let library = folder.join("libdoor.a");
    println!("cargo:rerun-if-env-changed=RINDOVESH_LIB_DIR");
    println!("cargo:rerun-if-changed={}", library.display());
    if !library.is_file() {
        panic!(
            "there is no {}: build it with tests/library.sh, or name its folder in RINDOVESH_LIB_DIR",
            library.display()
        );
    }
    println!("cargo:rustc-link-search=native={}", folder.display());
    println!("cargo:rustc-link-lib=static=door");
}

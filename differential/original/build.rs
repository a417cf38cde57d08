//! Writes the module that takes in the original's files, each where it stands: in SPLINTR_SRC, or else
//! in `../shared/docs/src` beside the repository.

use std::env;
use std::fs;
use std::path::PathBuf;

fn main() {
    let package = PathBuf::from(env::var_os("CARGO_MANIFEST_DIR").expect("set by cargo"));
    let src = match env::var_os("SPLINTR_SRC") {
        Some(folder) => PathBuf::from(folder),
        None => package.join("../../../shared/docs/src"),
    };
    let train = src.join("crates/train/src");
    println!("cargo:rerun-if-env-changed=SPLINTR_SRC");
    let mut text = String::new();
    for (module, file) in [
        ("pub mod error", "error.rs"),
        ("pub mod corpus", "corpus.rs"),
        ("pub mod vocab", "vocab.rs"),
        ("pub mod bpe", "bpe/mod.rs"),
        ("mod word", "bpe/word.rs"),
    ] {
        let path = train.join(file);
        let path = path.canonicalize().unwrap_or_else(|_| panic!("there is no original at {}", path.display()));
        println!("cargo:rerun-if-changed={}", path.display());
        text += &format!("#[path = {:?}]\n{module};\n", path.display().to_string());
    }
    let out = PathBuf::from(env::var_os("OUT_DIR").expect("set by cargo"));
    fs::write(out.join("original.rs"), text).expect("the build folder can be written");
}

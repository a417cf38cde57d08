#!/bin/sh
# Runs the tests and the examples of the Rust binding against the library, libdoor.a
# (tests/library.sh builds it) in RINDOVESH_LIB_DIR or target/staticlib.
set -e
cd "$(dirname "$0")/.."
cargo test --offline --locked --quiet --manifest-path bindings/rust/Cargo.toml --target-dir target/cargo

#!/bin/sh
# Compares the library with the Rust original, both run: `differential/run.sh [ARGUMENTS]` hands its
# arguments to the program (differential/src/bin/compare.rs: --whole, --cases N, --seed S, --only GROUP).
# The original's files are compiled unchanged from SPLINTR_SRC (default ../shared/docs/src), outside of
# this repository; the library is libdoor.a (tests/library.sh builds it) in RINDOVESH_LIB_DIR
# or target/staticlib. Exit status 3: there is no original here.
set -e
cd "$(dirname "$0")/.."
SPLINTR_SRC=${SPLINTR_SRC:-../shared/docs/src}
if [ ! -f "$SPLINTR_SRC/crates/train/src/bpe/mod.rs" ]; then
    echo "no original at $SPLINTR_SRC: nothing compared"
    exit 3
fi
SPLINTR_SRC=$(cd "$SPLINTR_SRC" && pwd)
export SPLINTR_SRC
cargo build --release --offline --locked --quiet --manifest-path differential/Cargo.toml --target-dir target/cargo
# shellcheck disable=SC2086
exec $RUN target/cargo/${CARGO_BUILD_TARGET:+$CARGO_BUILD_TARGET/}release/compare "$@"

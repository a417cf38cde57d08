#!/bin/sh
# Proves the C door and puts its archive where the tests and the bindings look for it:
# target/staticlib/libdoor.a, the archive that `rt lib` builds in crates/door_c.
set -e
cd "$(dirname "$0")/.."
(cd crates/door_c && rt lib)
mkdir -p target/staticlib
cp crates/door_c/out/libdoor_c.a target/staticlib/libdoor.a
echo "target/staticlib/libdoor.a is built"

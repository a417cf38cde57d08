#!/bin/sh
# Runs crates/demo/out/demo (`rt ci`, or `rt run` in crates/demo, builds it) on the texts of tests/demo.py and
# compares with their exact answers. Status 3: the program is not there.
cd "$(dirname "$0")/.." || exit 2
if [ ! -x crates/demo/out/demo ]; then
    echo "crates/demo/out/demo is not there: rt run in crates/demo" >&2
    exit 3
fi
command -v python3 > /dev/null || { echo "no python3: the other texts not run" >&2; exit 3; }
# shellcheck disable=SC2086
exec python3 tests/demo.py $RUN crates/demo/out/demo

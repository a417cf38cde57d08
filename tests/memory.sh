#!/bin/sh
# Runs a bounded share of the comparison under valgrind: each lent run is then a block of its own, so that
# a read or a write outside of it is seen, and so is a choice made on a byte that was never written.
# Exit status 3: there is no valgrind, or no original to compare with.
set -e
cd "$(dirname "$0")/.."
[ -z "$RUN" ] || { echo "no valgrind under an emulator: memory not looked at"; exit 3; }
command -v valgrind > /dev/null || { echo "no valgrind: memory not looked at"; exit 3; }
# builds the program, and sees it run right without valgrind
differential/run.sh --only examples
exec valgrind --quiet --error-exitcode=1 --leak-check=no --fair-sched=yes \
    target/cargo/release/compare --bare --threads 1 --cases "${1:-2000}"

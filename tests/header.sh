#!/bin/sh
# Compiles each example in the comments of include/rindovesh.h against the library and runs it; then
# the header alone, as C and as C++. An example is the indented text behind a line that begins with
# "Example". The library is libdoor.a (tests/library.sh builds it), in RINDOVESH_LIB_DIR or target/staticlib.
# CC compiles for x86-64, and RUN stands before a program that is run (.ci/run).
set -e
cd "$(dirname "$0")/.."
library=${RINDOVESH_LIB_DIR:-target/staticlib}/libdoor.a
out=$(mktemp -d)
trap 'rm -rf "$out"' EXIT
awk -v out="$out" '
    /^ \* Example/ { taking = 1; started = 0; n++; next }
    /^ \*     / && taking { started = 1; print substr($0, 8) > (out "/example" n ".c"); next }
    /^ \*$/ { next }
    started { taking = 0 }
' include/rindovesh.h
count=0
for example in "$out"/example*.c; do
    "${CC:-gcc}" -std=c99 -Wall -Wextra -Wpedantic -Werror -Iinclude "$example" "$library" -o "$out/example"
    # shellcheck disable=SC2086
    $RUN "$out/example"
    count=$((count + 1))
done
[ "$count" -eq "$(grep -c '^ \* Example' include/rindovesh.h)" ]
gcc -std=c99 -Wall -Wextra -Wpedantic -Werror -fsyntax-only include/rindovesh.h
if command -v g++ > /dev/null; then
    g++ -Wall -Wextra -Wpedantic -Werror -fsyntax-only include/rindovesh.h
fi
echo "$count examples of the header ran right"

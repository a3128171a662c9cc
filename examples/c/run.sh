#!/bin/sh
# Makes the archive, builds the example with it and walks a small module. What that prints is held to expected.txt.
# CC says which C compiler to use (it compiles for x86-64; default: cc).
set -eu
cd "$(dirname "$0")/../.."
built=target/examples
mkdir -p "$built"

if ! (cd crates/abi_c && rt lib --cpu x86-64) >"$built/archive.log" 2>&1; then
    tail -n 20 "$built/archive.log" >&2
    echo "run.sh: no archive; the whole of what rt printed is in $built/archive.log" >&2
    exit 1
fi
cp crates/abi_c/out/libabi_c.a "$built/libabi.a"
# It links where there is no C library: it needs no name from outside.
nm -u "$built/libabi.a" >"$built/outside.txt"
if grep ' U ' "$built/outside.txt"; then
    echo "run.sh: the archive needs these names from outside" >&2
    exit 1
fi
"${CC:-cc}" -std=c11 -O2 -Wall -Wextra -Iinclude examples/c/walk.c "$built/libabi.a" -o "$built/walk"
examples/c/make_module.sh >"$built/small.dis"

(cd "$built" && ./walk small.dis oops other) >"$built/printed.txt"
cat "$built/printed.txt"
diff examples/c/expected.txt "$built/printed.txt"

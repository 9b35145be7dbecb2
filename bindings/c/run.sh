#!/usr/bin/env bash
# Builds the example, runs it, and holds what it prints to expected.txt. RAXDOV_LIB: the folder of libraxdov.a.
set -eu
cd "$(dirname "$0")"
out=$(mktemp -d)
trap 'rm -rf "$out"' EXIT
make -s header
make -s OUT="$out"
"$out/example" >"$out/printed.txt"
diff expected.txt "$out/printed.txt"
echo "bindings/c: the header is C99 and C++, and the example prints what it should"

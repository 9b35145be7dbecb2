#!/usr/bin/env bash
# Tests and documentation of the crate with every warning an error. RAXDOV_LIB: libraxdov.a or its folder. With
# ISDB_SRC set (compare/oracle/README.md) also the comparison with the Rust original.
set -eu
cd "$(dirname "$0")"
export RUSTFLAGS="-D warnings" RUSTDOCFLAGS="-D warnings"
cargo fmt --check -p raxdov -p against
if [ -n "${ISDB_SRC:-}" ]; then
    cargo test --offline --workspace
else
    cargo test --offline
    echo "ISDB_SRC is not set: not compared with the original" >&2
fi
cargo doc --offline --no-deps

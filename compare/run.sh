#!/bin/sh
# Holds the archive to the original: run.sh [--seed N] [--seconds N] .., see docs/EVIDENCE.md.
# The archive is crates/raxdov/out/libraxdov.a (`rt lib` in crates/raxdov) or RAXDOV_LIB, the original lies below ISDB_SRC.
set -e
cd "$(dirname "$0")/harness"
exec cargo run --release --offline --quiet --bin harness -- "$@"

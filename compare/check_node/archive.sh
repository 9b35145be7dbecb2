#!/usr/bin/env bash
# Makes the archive of the lanes' functions that is timed here: a copy of the repository gets the crate `bench_lanes` from bench_lanes/,
# and libbench_lanes.a is put into this repository's target/staticlib. Its functions ask what their callers in the decoder show, so they
# are no part of the product.
set -eu
here=$(cd "$(dirname "$0")" && pwd)
top=$(cd "$here/../.." && pwd)
copy=$(mktemp -d)
trap 'rm -rf "$copy"' EXIT
cp -r "$top/crates" "$top/crates.txt" "$copy"
mkdir -p "$copy/crates/bench_lanes/src"
cp "$here/bench_lanes/lib.rt.txt" "$copy/crates/bench_lanes/src/lib.rt"
for proof in "$here"/bench_lanes/*.antt.txt; do
    [ -f "$proof" ] || continue
    name=$(basename "$proof" .antt.txt)
    mkdir -p "$copy/crates/bench_lanes/proofs/$name"
    cp "$proof" "$copy/crates/bench_lanes/proofs/$name/Answers.antt"
done
echo "bench_lanes staticlib: laws refusal ldpc_shape ldpc_edges iteration fixed_code lane_math lane16 simd simd_layered fixed fixed_lanes fixed_conflicts fixed_layered fixed_syndrome" >> "$copy/crates.txt"
(cd "$copy/crates/bench_lanes" && rt lib)
mkdir -p "$top/target/staticlib"
cp "$copy/crates/bench_lanes/out/libbench_lanes.a" "$top/target/staticlib/"

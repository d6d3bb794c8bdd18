#!/bin/sh
# Builds the library and the benchmark, and runs it: sh bench/fields/run.sh
set -e
cd "$(dirname "$0")/../.."
(cd crates/field_bench && rt lib >/dev/null)
out=crates/field_bench/out
cc -O3 -o "$out/bench" bench/fields/bench.c "$out/libfield_bench.a"
"$out/bench"

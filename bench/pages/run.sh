#!/bin/sh
# Builds the library and the benchmark, and runs it: sh bench/pages/run.sh
set -e
cd "$(dirname "$0")/../.."
(cd crates/page_bench && rt lib >/dev/null)
out=crates/page_bench/out
cc -O3 -o "$out/bench" bench/pages/bench.c "$out/libpage_bench.a"
"$out/bench"

#!/bin/sh
# Builds the library and the benchmark, and runs it: sh bench/reed_solomon/run.sh (wants Debian's libfec-dev)
set -e
cd "$(dirname "$0")/../.."
(cd crates/reed_solomon_bench && rt lib >/dev/null)
out=crates/reed_solomon_bench/out
cc -O3 -o "$out/bench" bench/reed_solomon/bench.c "$out/libreed_solomon_bench.a" -lfec
"$out/bench"

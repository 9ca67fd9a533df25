#!/bin/sh
# bench.sh: prints the times of the static library and of the Rust of oracle/ on the same input (compare/bench.rs), and then those of crates
# `float` and `matrix` and of large sheets. It needs rt and rustc, and gcc and python3 for the last two.
set -e
cd "$(dirname "$0")/.."
sh compare/build.sh
target/compare/compare bench
sh tools/bench_float.sh
sh tools/bench_sheets.sh

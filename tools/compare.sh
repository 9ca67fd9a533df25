#!/bin/sh
# compare.sh [N [SEED]]: compares the static library with the Rust of oracle/ (compare/) on random solids, until types, search and rotations
# of N clean ones are done, and on as many copyings or more. It needs rt and rustc. The last line counts the differences.
set -e
cd "$(dirname "$0")/.."
sh compare/build.sh
target/compare/compare "${1:-2000}" "${2:-1}"
